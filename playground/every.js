/**
 * Every order: questions about all orders of the listing's harts, or about some that are drawn by chance, asked in a worker,
 * and what is found.
 */
const every = (() => {
  const part = (id) => document.getElementById(id);
  const { element } = draw;
  const { STATUS } = machine;
  const TICK_MS = 1000;
  /** So many labels have a button. */
  const MOST_LABELS = 24;
  /** The field that a question has its words from. */
  const FIELDS = { outcomes: "every-items", find: "every-condition" };
  /** The fields of how much a search may keep. */
  const LIMITS = ["every-limit", "every-memory"];
  /** The fields of how orders are drawn, by their names in a link, as the call takes them. */
  const DRAWN = { orders: "every-runs", seed: "every-seed", length: "every-length", depth: "every-depth" };
  const MEBIBYTE = 1_048_576;
  const LINKED = /^(outcomes|find|check|sample)(?::([^]*))?$/;

  /** The question that was asked last: its listing, its words, and when. */
  let asked = null;
  let ticking = 0;
  let labelled = "";

  // ------------------------------------------------------------------ questions

  const itemsNow = () => part("every-items").value.replace(/\s+/g, "");
  const numberIn = (id) => Number(part(id).value);
  const conditionNow = () => part("every-condition").value.trim().replace(/\s+/g, " ");

  /** What all questions about every order have: how many states may be kept, and what is done meanwhile, in words. */
  function searching(about) {
    const limit = numberIn("every-limit");
    return { numbers: [limit], doing: `Searching every order for ${about}, up to ${limit.toLocaleString("en")} states.` };
  }

  /** Each question: the call with its words and numbers, what is done meanwhile, and how what is found is drawn. */
  const QUESTIONS = {
    outcomes: () => {
      const items = itemsNow();
      return items === "" ? { call: "outcomes", words: [], ...searching("how it can end"), show: found.outcomes }
        : { call: "rows", words: [items], ...searching(`the values of ${items} at the ends`),
          show: (answer) => found.rows(answer, items.split(",")) };
    },
    find: () => ({ call: "find", words: [conditionNow()], ...searching(`a state in which ${conditionNow()}`),
      show: found.state }),
    check: () => ({ call: "verdicts", words: [], ...searching("its properties"), show: found.verdicts }),
    sample: () => {
      const numbers = Object.values(DRAWN).map(numberIn);
      return { call: "sample", words: [], numbers, doing: `Running ${numbers[0].toLocaleString("en")} orders drawn by chance.`,
        show: found.sampled };
    },
  };

  /** Says what is being searched, and for how long. */
  function showDoing(words) {
    clearInterval(ticking);
    part("every-stop").disabled = words === "";
    part("every-doing").textContent = words;
    part("every-seconds").textContent = "";
    if (words === "") return;
    const began = Date.now();
    ticking = setInterval(() => {
      part("every-seconds").textContent = ` ${Math.round((Date.now() - began) / 1000)} s`;
    }, TICK_MS);
  }

  function showAnswer(...parts) {
    part("every-answer").replaceChildren(...parts.filter(Boolean));
    follow();
  }

  /** Asks a question of what stands in the editor. */
  async function ask(name) {
    if (!LIMITS.every((id) => part(id).reportValidity()) || !desk.isReady()) return;
    const { listing } = desk.read();
    const question = { listing, ...QUESTIONS[name]() };
    const { call, words, numbers, doing, show } = question;
    asked = question;
    showAnswer();
    showDoing(doing);
    const began = performance.now();
    const answer = await asking.ask(numberIn("every-memory") * MEBIBYTE, call, listing, ...words, ...numbers);
    if (asked !== question) return;
    showDoing("");
    const seconds = ((performance.now() - began) / 1000).toFixed(1);
    if (!answer) {
      asked = null;
      part("every-doing").textContent = `Stopped after ${seconds} s: nothing is known.`;
    } else if (answer.status !== STATUS.DONE) showFault(answer, words[0] ?? "");
    else {
      part("every-doing").textContent = `Answered after ${seconds} s.`;
      showAnswer(...show(answer.found));
      if (part("every").contains(document.activeElement)) part("every-answer").scrollIntoView({ block: "nearest" });
    }
  }

  // ------------------------------------------------------------------ faults

  const HELP = {
    [STATUS.CONDITION]: "A condition is made of parts as \"two harts in enter..leave\", \"0 is trapped\", \"1.c6 = 2\" or "
      + "\"mem8[0x80000000] = 1\", joined by and, or, not and parentheses.",
    [STATUS.ITEMS]: "Items are places as 0.c6, 1.pcc, 0.status or mem8[0x80000000], at most 16, with commas between.",
    [STATUS.MEMORY]: "Memory ran out: take more of it, fewer states or runs, or a listing with less RAM.",
  };

  /** The word of the asked text that a fault is about. */
  function markedWord(text, byte) {
    const at = source.indexOfByte(text, byte);
    return faulty.markIn(text, at, at + (/^[^ ,]+/.exec(text.slice(at))?.[0].length ?? 0));
  }

  function propertyFault({ line: words, place, column }) {
    if (place === 0 && assembly.isOn()) {
      return [element("p", {}, "Assembly has no properties: they are lines of a listing. Ask for a condition in their place.")];
    }
    if (place === 0) {
      return [element("p", {}, "This text has no property. One is a line as ",
        element("code", {}, "#! never two harts in enter..leave"), ", with ",
        element("code", {}, "always"), ", ", element("code", {}, "sometimes"), " or ", element("code", {}, "finally"),
        " in the place of never, or ", element("code", {}, "#! ends"), " or ", element("code", {}, "#! ends fairly"), ".")];
    }
    const text = asked.listing.split("\n")[place - 1] ?? "";
    const go = element("button", { type: "button", "data-line": place }, `Go to line ${place}`);
    return [element("p", {}, words, " ", go), element("p", {}, markedWord(text, column))];
  }

  function showFault(answer, text) {
    const { status, line, place } = answer;
    const isMarked = status === STATUS.CONDITION || status === STATUS.ITEMS;
    const words = status === STATUS.PROPERTIES ? propertyFault(answer)
      : [element("p", {}, line, isMarked ? markedWord(text, place) : null),
        HELP[status] && element("p", { class: "meaning" }, HELP[status])];
    showAnswer(element("div", { class: "fault" }, ...words));
    part("every-doing").textContent = "There is no answer.";
  }

  // ------------------------------------------------------------------ what was found

  /** Says whether the answer is still of what stands in the editor, whose labels are offered. */
  function follow() {
    const { isGood, listing } = desk.read();
    const isStale = asked !== null && !(isGood && listing === asked.listing);
    const hasAnswer = part("every-answer").childElementCount > 0;
    part("every-stale").textContent = isStale && hasAnswer ? "The text has changed since: ask again." : "";
    part("every-answer").classList.toggle("dimmed", isStale);
    for (const button of part("every-answer").querySelectorAll("[data-order]")) button.disabled = isStale;
    if (isGood && labelled !== listing) showLabels(listing);
  }

  /** A button for each label, which puts it into the condition. */
  function showLabels(listing) {
    labelled = listing;
    const targets = desk.isLarge() ? [] : desk.programNow()?.targets ?? [];
    part("every-labels").replaceChildren(...targets.slice(0, MOST_LABELS).map(({ name, target }) =>
      element("button", { type: "button", "data-target": target, "aria-label": `Put ${name} into the condition` },
        name === target ? name : `${name} = ${target}`)));
    part("every-labels-row").hidden = targets.length === 0;
    const count = listing.match(/^[ \t]*#! (?:never|always|sometimes|finally|ends)/gm)?.length ?? 0;
    part("every-properties").textContent = assembly.isOn() ? "Listings alone have them."
      : count === 0 ? "It has none yet: a line #! says one."
      : `${count === 1 ? "One line" : `${count} lines`} #! of the listing.`;
  }

  /** Opens an order at its end, and brings what it leads to into sight. */
  function openOrder(written) {
    changes.changeOrder(orders.ofAnswer(written), undefined);
    part("why-title").closest("section").scrollIntoView({ block: "nearest" });
  }

  // ------------------------------------------------------------------ fields

  /** What is offered beside a field. */
  function offer(field, list, offered) {
    const { isGood, listing } = desk.read();
    if (!isGood || desk.isLarge()) return;
    const about = { listing, targets: desk.programNow()?.targets ?? [], harts: desk.imageNow().harts };
    offers.fill(list, offered(field.value, about));
  }

  function watch(field, list, offered) {
    for (const kind of ["focus", "input"]) field.addEventListener(kind, () => offer(field, list, offered));
  }

  /** Takes the numbers that a link says, as `orders=1000,seed=7`. */
  function takeNumbers(text) {
    for (const [, name, number] of text.matchAll(/([a-z]+)=(\d+)/g)) if (DRAWN[name]) part(DRAWN[name]).value = number;
  }

  /**
   * Asks what a link says: `outcomes`, `find`, `check` or `sample`, and after a colon items, a condition, or how orders are
   * drawn. Where its form can't take that, nothing is asked.
   */
  function askLinked(words) {
    const [, name, text = ""] = LINKED.exec(words) ?? [];
    if (!name) return;
    if (FIELDS[name]) part(FIELDS[name]).value = text;
    if (name === "sample") takeNumbers(text);
    part("every").scrollIntoView({ block: "start" });
    if (part(`every-${name}`).reportValidity()) ask(name);
  }

  /** Puts a word into the condition where its cursor is. */
  function putIn(word) {
    const field = part("every-condition");
    const [from, to] = [field.selectionStart, field.selectionEnd];
    const gap = /[^ (.]$/.test(field.value.slice(0, from)) ? " " : "";
    field.setRangeText(`${gap}${word}`, from, to, "end");
    field.focus();
  }

  function listen() {
    for (const name of Object.keys(QUESTIONS)) {
      part(`every-${name}`).addEventListener("submit", (submit) => {
        submit.preventDefault();
        ask(name);
      });
    }
    part("every-stop").addEventListener("click", asking.stop);
    part("every-go").addEventListener("click", () => {
      part("every").scrollIntoView({ block: "start" });
      part("every-items").focus({ preventScroll: true });
    });
    part("every-labels").addEventListener("click", ({ target }) => target.dataset.target && putIn(target.dataset.target));
    part("every-answer").addEventListener("click", ({ target }) => {
      if (target.dataset.order !== undefined) openOrder(target.dataset.order);
      else if (target.dataset.line) desk.code.goTo(Number(target.dataset.line));
    });
    watch(part("every-items"), part("every-places"), offers.ofItems);
    watch(part("every-condition"), part("every-conditions"), offers.ofCondition);
  }

  desk.onJudged = follow;

  return { ask, askLinked, canAsk: (words) => LINKED.test(words), listen };
})();
