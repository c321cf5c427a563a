/** A member in a worker of this page, as the board needs one (`live/ui/types.js`). */

/** @typedef {import('../../live/ui/types.js').Reply} Reply */

export class WorkerMember {
  /** @param {import('./worker.js').Beginning} beginning */
  constructor(beginning) {
    this.worker = new Worker(new URL('worker.js', import.meta.url), { type: 'module' });
    this.beginning = beginning;
    /** Questions without an answer yet.
     * @type {Map<number, (answer: Reply) => void>} */
    this.asked = new Map();
    this.last = 0;
  }

  /** @param {(name: string, news: any) => void} hear */
  subscribe(hear) {
    this.worker.onmessage = ({ data }) => {
      if (data.name) hear(data.name, data.news);
      else this.settle(data);
    };
    this.worker.onerror = (event) => hear('broken', event.message || 'the worker of this page was not found');
    this.worker.postMessage(this.beginning);
  }

  /** @param {{ id: number, answer: Reply }} told */
  settle({ id, answer }) {
    this.asked.get(id)?.(answer);
    this.asked.delete(id);
  }

  /** @param {string} call @param {any[]} words @returns {Promise<any>} */
  ask(call, ...words) {
    this.last += 1;
    this.worker.postMessage({ id: this.last, call, words });
    return new Promise((take) => { this.asked.set(this.last, take); });
  }

  /** @param {string} page @param {string} operation @returns {Promise<Reply>} */
  draw(page, operation) {
    return this.ask('draw', page, operation);
  }

  /** @param {string | null} page @returns {Promise<Reply>} */
  choose(page) {
    return this.ask('choose', page);
  }

  /** Takes a new number.
   * @returns {Promise<Reply>} */
  renumber() {
    return this.ask('renumber');
  }

  /** @param {string} page @param {[number, number] | null} cell @param {string[]} begun @returns {Promise<Reply>} */
  point(page, cell, begun) {
    return this.ask('point', page, cell, begun);
  }

  /** @param {import('../../live/ui/types.js').Worse} worse @returns {Promise<Reply>} */
  worsen(worse) {
    return this.ask('worsen', worse);
  }

  /** What a page shows, which need not be in view.
   * @param {string} page
   * @returns {Promise<import('../../live/ui/types.js').Board | null>} */
  async read(page) {
    const answer = await this.ask('read', page);
    return answer.ok ? answer : null;
  }

  /** What of a page is new.
   * @param {string} page @param {string} since @returns {Promise<import('../../live/ui/types.js').PageNews | null>} */
  async news(page, since) {
    const answer = await this.ask('news', page, since);
    return answer.ok ? answer : null;
  }

  /** The record: every line that changed the host, as a text.
   * @returns {Promise<string | null>} */
  async record() {
    const answer = await this.ask('record');
    return answer.ok ? answer.text : null;
  }
}
