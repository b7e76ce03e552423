/** Breakpoints: numbers of a listing's lines, which stay at their lines when others are put in or taken out. */
const points = (() => {
  let lines = [];
  let text = "";

  /** The numbers of lines after the change from one text to another: those below the change move with it. */
  function moved(numbers, before, after) {
    const [old, now] = [before.split("\n"), after.split("\n")];
    const least = Math.min(old.length, now.length);
    let same = 0;
    while (same < least && old[same] === now[same]) same += 1;
    let end = 0;
    while (end < least - same && old[old.length - 1 - end] === now[now.length - 1 - end]) end += 1;
    return numbers.map((line) => {
      if (line <= same) return line;
      return line > old.length - end ? line + now.length - old.length : Math.min(line, now.length - end);
    }).filter((line, index, all) => line >= 1 && all.indexOf(line) === index);
  }

  /** Takes these lines as those of a text. */
  function set(numbers, listing) {
    lines = numbers.filter((line) => Number.isInteger(line) && line >= 1).sort((a, b) => a - b);
    text = listing;
  }

  function follow(listing) {
    if (lines.length > 0) lines = moved(lines, text, listing);
    text = listing;
  }

  function toggle(line) {
    lines = lines.includes(line) ? lines.filter((one) => one !== line) : [...lines, line].sort((a, b) => a - b);
  }

  return { all: () => lines, follow, moved, set, toggle };
})();
