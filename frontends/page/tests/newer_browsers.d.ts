// What browsers of 2023 have and the TypeScript of Debian 12 doesn't know, and what a test finds in the page.

interface Array<T> {
  findLast(test: (value: T, place: number) => unknown): T | undefined;
  findLastIndex(test: (value: T, place: number) => unknown): number;
  toSpliced(start: number, count?: number, ...more: T[]): T[];
  toReversed(): T[];
  with(place: number, value: T): T[];
}

interface Element {
  checkVisibility(options?: object): boolean;
  // an element that a selector finds is one of HTML
  readonly dataset: DOMStringMap;
  hidden: boolean;
  tabIndex: number;
  focus(options?: FocusOptions): void;
}

interface Event {
  detail?: any;
}

interface BroadcastChannel {
  unref?(): void;
}

interface HTMLElement {
  ariaCurrent: string | null;
}

interface FileSystemFileHandle {
  requestPermission?(options: object): Promise<string>;
}

declare class OffscreenCanvas {
  constructor(width: number, height: number);
  getContext(kind: '2d', options?: object): CanvasRenderingContext2D;
  convertToBlob(options: object): Promise<Blob>;
}

declare class DecompressionStream {
  constructor(format: string);
  readonly readable: ReadableStream<Uint8Array>;
  readonly writable: WritableStream<Uint8Array>;
}

declare var chipbenchPage: any;
declare var trustedTypes: any;
declare var showOpenFilePicker: any;
declare var showSaveFilePicker: any;
