/**
 * Questions about all orders, asked of a machine in a worker: so the page stays alive, and a question can be stopped. The
 * page is one file that is opened from disk, so the worker is made of the page's own script and module.
 */
const asking = (() => {
  /** So many rows of an answer are passed on; of more there is the count. */
  const MOST_ROWS = 200;
  /** The status where the worker came to no answer. */
  const NO_ANSWER = -1;

  let worker = null;
  /** Takes the answer of the question that is being asked; nothing where none is. */
  let take = null;

  /** What the worker does with its machine: it takes the module, and then one question after the other. */
  function work(calls, most) {
    const ROWS = ["outcomes", "shown"];

    /** An answer of which no more rows are left than these, each list with its count. */
    function shortened(found) {
      for (const rows of ROWS.filter((name) => found[name])) {
        found.count = found[rows].length;
        found[rows].length = Math.min(found.count, most);
      }
      return found;
    }

    self.addEventListener("message", ({ data: { module, bytes, call, words } }) => {
      if (module) calls.begin(module);
      else {
        calls.limit(bytes);
        const { text, ...answer } = calls[call](...words);
        self.postMessage({ ...answer, found: text ? shortened(JSON.parse(text)) : null });
      }
    });
  }

  function end() {
    worker?.terminate();
    worker = null;
  }

  /** Gives the answer to whom it is for. */
  function answer(found) {
    const taken = take;
    take = null;
    taken?.(found);
  }

  /** The worker that there is, or a new one. */
  function begun() {
    if (worker) return worker;
    const script = `"use strict"; (${work})((${machineCalls})(), ${MOST_ROWS});`;
    const place = URL.createObjectURL(new Blob([script], { type: "text/javascript" }));
    worker = new Worker(place);
    worker.addEventListener("message", ({ data }) => answer(data));
    worker.addEventListener("error", (fault) => {
      fault.preventDefault();
      end();
      answer({ status: NO_ANSWER, line: `The search ended early: ${fault.message || "no worker is started here"}` });
    });
    worker.postMessage({ module: machine.compiled() });
    return worker;
  }

  /** Ends the question that is being asked: its answer is nothing. */
  function stop() {
    if (!take) return;
    end();
    answer(null);
  }

  /**
   * Asks a call of the machine, which has so many bytes of memory, in place of what is being asked. Gives its answer, or
   * nothing where it is stopped.
   */
  function ask(bytes, call, ...words) {
    stop();
    const answered = new Promise((resolve) => { take = resolve; });
    begun().postMessage({ bytes, call, words });
    return answered;
  }

  return { ask, stop };
})();
