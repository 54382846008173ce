/** Running in time: scans are made as they come due by the clock of the page, faster by a factor. */

const BUDGET = 24; // milliseconds of work in a frame

export class Run {
  /**
   * @param {import('./play.js').Play} play
   * @param {{moved: () => void, ended: (told: {code: number, text: string} | null) => void, failed: (error: Error) => void}} listener
   */
  constructor(play, listener) {
    this.play = play;
    this.listener = listener;
    this.isRunning = false;
    this.speed = 1;
    this.clock = 0;
  }

  start() {
    this.isRunning = true;
    this.clock = this.play.instant;
    this.last = performance.now();
    requestAnimationFrame(() => this.tick());
  }

  stop() { this.isRunning = false; }

  /** The instant of a command that is said now, in whole milliseconds. */
  get instant() {
    const at = this.play.instant;
    return this.isRunning ? Math.max(at, Math.floor(this.clock / 1000) * 1000) : at;
  }

  tick() {
    if (!this.isRunning) return;
    const now = performance.now();
    this.clock += Math.min(now - this.last, 250) * 1000 * this.speed;
    this.last = now;
    try {
      const told = this.play.isOpen && !this.play.isMoving ? this.work(now + BUDGET) : null;
      this.listener.moved();
      if (told) this.end(told);
      else requestAnimationFrame(() => this.tick());
    } catch (error) {
      this.isRunning = false;
      this.listener.failed(error);
    }
  }

  end(told) {
    this.isRunning = false;
    this.listener.ended(told.code ? told : null);
  }

  /** Scans what has come due; what ends the run, if something does. @param {number} end */
  work(end) {
    for (;;) {
      const told = this.play.scan(this.clock);
      if (!told) return null;
      if (told.code || / hit$/m.test(told.text.split('\n', 1)[0])) return told;
      if (performance.now() < end) continue;
      this.clock = Math.min(this.clock, this.play.instant);
      return null;
    }
  }
}
