"""How soon the page answers, and how evenly it plays."""

from __future__ import annotations

from browser_page import PageTests
from browser_run import EMPTY_PAGE

SECONDS = 2
THROTTLED = 6
LEAST_THROTTLED = 20
# plays for some seconds: how many frames a second the browser draws, and in how many of them another step is shown
PLAYED = f"""new Promise((done) => {{
    const {{ viewer, player, model }} = chipbenchPage;
    const steps = new Set();
    const show = () => steps.add(viewer.machine.step);
    let [frames, began] = [0, 0];
    const tick = (now) => {{
        if (frames === 0) {{ began = now; viewer.addEventListener('shown', show); }}
        const seconds = (now - began) / 1000;
        if (seconds > {SECONDS}) {{
            viewer.removeEventListener('shown', show);
            player.play(0);
            return done({{ frames: frames / seconds, shown: steps.size / seconds, step: model.step }});
        }}
        frames += 1;
        return requestAnimationFrame(tick);
    }};
    player.play(1);
    // the first frames begin the play
    setTimeout(() => requestAnimationFrame(tick), 300);
}})"""


class SpeedTests(PageTests):
    def test_the_first_answer(self) -> None:
        """From the opening of the page to what the program answers, within half a second: of a new source, and of a game that is open."""
        for name, text in (("nothing", None), ("a game", self.example("bounce"))):
            with self.page_of_nothing() if text is None else self.page(text) as browser:
                tries = []
                for _ in range(5):
                    self.reload()
                    tries.append(browser.value("performance.getEntriesByName('first answer')[0].startTime"))
                tries.sort()
                print(f"    the first answer with {name} open: {tries[0]:.0f} to {tries[-1]:.0f} ms, the middle {tries[2]:.0f}")
                assert tries[0] < 500 * browser.patience, tries

    def test_frames_of_a_play(self) -> None:
        """A play shows another step in each frame that the browser draws, slow or fast; where the page has a sixth of the time, in twenty a second."""
        self.browser.open("about:blank")
        drawn = min(60, max(self.browser.value(EMPTY_PAGE) for _ in range(2)))
        with self.page(self.example("breaker")) as browser:
            for rate in (10, 100, 1000):
                browser.value(f"chipbenchPage.model.setOptions({{ ...chipbenchPage.model.options, rate: '{rate}' }})")
                self.check_play(f"at rate {rate}", 0.9 * drawn)
            if browser.throttle(THROTTLED):
                self.check_play(f"at rate {rate}, throttled {THROTTLED} times", LEAST_THROTTLED)
                browser.throttle(1)

    def check_play(self, name: str, least: float) -> None:
        """Plays anew from the start; other work on this machine may slow a try down."""
        tries = []
        for _ in range(3):
            self.step(0)
            tries.append(self.browser.value(PLAYED))
        best = max(tries, key=lambda one: one["shown"])
        print(f"    a play {name}: {best['shown']:.0f} steps shown a second, {best['frames']:.0f} frames")
        assert best["shown"] > least / self.browser.patience, (name, tries)
