// The settings of a session that the page knows, by the names of their options.
export const OPTIONS = ['rate', 'tape', 'seed', 'profile', 'quirks', 'every'];
