/** A question to which the person says yes or no: Escape is no. */
const question = (() => {
  const part = (id) => document.getElementById(id);
  let answered = null;

  /** Asks; calls `yes` where it is answered so. */
  function ask(words, yes) {
    part("question-words").textContent = words;
    answered = yes;
    part("question").showModal();
  }

  function begin() {
    part("question-no").addEventListener("click", () => part("question").close());
    part("question-yes").addEventListener("click", () => {
      part("question").close();
      answered();
    });
  }

  return { ask, begin };
})();
