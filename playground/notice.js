/** One line of words to the person. It goes with what is done next, by its button, or by Escape. */
const notice = (() => {
  const part = (id) => document.getElementById(id);

  function say(words) {
    part("notice").textContent = words;
    part("notice-close").hidden = words === "";
  }

  const hush = () => say("");

  /** From now on what a person does takes the words away, before it is done. */
  function begin() {
    for (const kind of ["click", "input", "change", "submit"]) document.addEventListener(kind, hush, true);
    document.addEventListener("keydown", ({ key }) => key === "Escape" && hush());
  }

  return { begin, hush, say };
})();
