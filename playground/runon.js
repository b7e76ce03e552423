/** Harts that run on after the operations done: a race of so many steps, or until all stop, or to a line. */
const runon = (() => {
  const part = (id) => document.getElementById(id);
  const { order } = desk;

  const listingNow = () => desk.read().listing;

  /** The place of the refused step among those that are drawn after `kept`, which has so many operations. */
  const stopAfter = (kept, done) => (text) => {
    const stop = runs.stopOf(listingNow(), kept + text);
    return stop < 0 ? -1 : stop - done;
  };

  /** Harts drawn by a seed, after the operations done. */
  function drawRace() {
    const [seed, count] = [part("race-seed"), part("race-count")].map((field) => Number(field.value));
    if (!part("race").reportValidity() || !desk.isReady()) return;
    const kept = orders.firstOf(order.value, desk.position());
    const done = orders.operationsOf(kept).length;
    const most = Math.min(count, runs.MOST_OPERATIONS - done);
    const drawn = race.draw(seed, most, desk.imageNow().harts, stopAfter(kept, done));
    changes.changeOrder(kept + drawn, undefined);
  }

  /** What draws the next hart in the chosen mode, and which harts run on. */
  function drawerOf(running, harts) {
    const mode = part("mode").value;
    if (mode === "random") return [race.seeded(Number(part("run-seed").value), harts), running];
    if (mode === "turns") return [race.inTurn((desk.lastEvent()?.hart ?? -1) + 1, harts), running];
    return [() => Number(mode), running.filter((hart) => hart === Number(mode))];
  }

  /** The order that goes on after the operations done until those harts have stopped that are to run. */
  function orderToEnd() {
    const kept = orders.firstOf(order.value, desk.position());
    const found = runs.endOf(listingNow(), kept);
    if (!found.isRun) return null;
    const running = found.state.harts.map(({ status }, hart) => (status === "running" ? hart : -1))
      .filter((hart) => hart >= 0);
    const [next, going] = drawerOf(running, found.state.harts.length);
    const drawn = race.drawUntilStopped(next, going, runs.MOST_OPERATIONS - found.at, stopAfter(kept, found.at));
    return { text: kept + drawn, done: found.at, steps: drawn.length };
  }

  /** Runs on to a breakpoint, or to this line, or until all harts have stopped. */
  function run(line) {
    if (part("mode").value === "random" && !part("run-seed").reportValidity()) return;
    if (!desk.isReady()) return;
    const found = orderToEnd();
    if (!found || found.steps === 0) {
      notice.say(found ? "There is no hart that can step." : "The order is faulty before the operations done.");
      return;
    }
    const addresses = desk.programNow()?.addresses ?? new Map();
    const stops = line === undefined ? points.all() : [line];
    const wanted = stops.map((one) => source.addressAt(addresses, one)).filter(Boolean);
    const stop = wanted.length > 0 ? runs.firstAt(listingNow(), found.text, wanted, found.done + 1) : -1;
    changes.changeOrder(stop < 0 ? found.text : orders.firstOf(found.text, stop), undefined);
    if (stop < 0) sayEnd(found, line);
  }

  function sayEnd({ done, steps }, line) {
    if (line !== undefined) notice.say(`No hart comes to line ${line} after this: they ran to the end.`);
    else if (done + steps === runs.MOST_OPERATIONS) notice.say("100,000 operations are done, and a hart still runs.");
  }

  return { drawRace, run };
})();
