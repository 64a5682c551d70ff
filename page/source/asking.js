// The page's side of the worker.

class Asking {
  // `files` are what the worker runs and the planner's module; `onProgress` hears how far an opening is.
  constructor(files, onProgress) {
    Object.assign(this, { files, onProgress });
    this.start();
  }

  start() {
    this.waiting = new Map();
    this.last = 0;
    const script = URL.createObjectURL(new Blob([this.files.script], { type: "text/javascript" }));
    this.worker = new Worker(script);
    this.worker.onmessage = ({ data }) => this.hear(data);
    this.worker.onerror = error => this.fail(error.message ?? "the worker could not start");
    this.loaded = this.ask("load", { module: this.files.module, records: this.files.layout });
    this.loaded.catch(() => {}).then(() => URL.revokeObjectURL(script));
  }

  hear({ id, answer, error, progress }) {
    if (progress) return this.onProgress(progress);
    const [done, failed] = this.waiting.get(id);
    this.waiting.delete(id);
    if (error === undefined) done(answer);
    else failed(new Error(error));
  }

  fail(message) {
    for (const [, failed] of this.waiting.values()) failed(new Error(message));
    this.waiting.clear();
  }

  // Asks the worker, once it holds the planner.
  async ask(question, words = {}) {
    if (question !== "load") await this.loaded;
    return new Promise((done, failed) => {
      this.waiting.set(++this.last, [done, failed]);
      this.worker.postMessage({ id: this.last, question, words });
    });
  }

  // Ends what runs, and begins with a new worker that holds no plan.
  restart() {
    this.worker.terminate();
    this.fail("stopped");
    this.start();
  }
}
