/** The examples: a menu of them, what one shows, and buttons that open it in one of its orders. */
const gallery = (() => {
  const part = (id) => document.getElementById(id);
  const { element } = draw;
  let examples = [];
  /** Opens an example in the order of a number. */
  let open = () => {};

  /** What the comments at the head of a listing say. */
  function aboutOf(text) {
    const lines = text.split("\n");
    const end = lines.findIndex((line) => !line.startsWith("#"));
    return lines.slice(0, end).map((line) => line.replace(/^# ?/, "")).join("\n");
  }

  function lessonWords({ lesson }) {
    if (!lesson) return [];
    return [element("a", { href: `lesson.html#part-${lesson}` }, `Part ${lesson} of the lesson`)];
  }

  function showExample() {
    const example = examples[part("example").selectedIndex];
    part("example-about").textContent = aboutOf(example.text) || example.shows;
    part("example-lesson").replaceChildren(...lessonWords(example));
    const buttons = example.orders.length ? example.orders : [{ name: "no order" }];
    part("example-orders").replaceChildren(...buttons.map(({ name }, number) => {
      const button = element("button", { type: "button" }, `Open with ${name}`);
      button.addEventListener("click", () => open(example, number));
      return button;
    }));
  }

  /** Chooses the example that has a text, where one has: so what is said of an example is of the one that is open. */
  function choose(text) {
    const index = examples.findIndex((one) => one.text === text);
    if (index < 0 || index === part("example").selectedIndex) return;
    part("example").selectedIndex = index;
    showExample();
  }

  /** Fills the menu; `openOne(example, number)` is called with what the person opens. */
  function begin(list, openOne) {
    examples = list;
    open = openOne;
    const optionsOf = (of) => of.map(({ name, shows }) => element("option", { value: name }, `${name}: ${shows}`));
    const [listings, files] = [false, true].map((is) => examples.filter(({ isAssembly = false }) => isAssembly === is));
    part("example").replaceChildren(...optionsOf(listings),
      element("optgroup", { label: "Programs in assembly" }, ...optionsOf(files)));
    part("example").addEventListener("change", showExample);
    showExample();
  }

  return { begin, choose };
})();
