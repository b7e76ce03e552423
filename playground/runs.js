/** Questions about a listing and an order, each answered by the module. */
const runs = (() => {
  const { STATUS } = machine;
  const MOST_OPERATIONS = 100_000;
  const LAST = 4_294_967_295;
  /** So many events are asked for at once, where one is looked for. */
  const MANY = 5000;

  /** The end of a run: its state, how many operations were done, and the fault that ended it. */
  function endOf(listing, order) {
    const found = machine.look(listing, order, LAST, 1, 0);
    const isRun = found.status === STATUS.DONE || found.status === STATUS.STEP;
    const { at, state } = isRun ? JSON.parse(found.text) : {};
    return { ...found, isRun, at, state };
  }

  /** The operation of an order that is refused since its hart has stopped, or -1. */
  function stopOf(listing, order) {
    const { status, place } = machine.look(listing, order, 0, 1, 0);
    return status === STATUS.STEP ? place : -1;
  }

  /** What an image has: how many harts and instructions, and how much RAM. */
  const imageOf = (listing) => JSON.parse(machine.json(listing, "").text).image;

  const eventsOf = (listing, order, from, to) => JSON.parse(machine.look(listing, order, 0, from, to).text).events;

  /** The first event from a number on that passes a test, or nothing. */
  function find(listing, order, from, length, test) {
    for (let begin = from; begin < length; begin += MANY) {
      const found = eventsOf(listing, order, begin, begin + MANY - 1).find(test);
      if (found) return found;
    }
    return null;
  }

  /** The number of the first event from one on whose step is at one of these addresses, by the report; or -1. */
  function firstAt(listing, order, addresses, from) {
    const wanted = new Set(addresses);
    const { text } = machine.run(listing, order);
    for (const [, number, pc] of text.matchAll(/^(\d+) hart=\d pc=([0-9a-f]{16}) /gm)) {
      if (Number(number) >= from && wanted.has(parseInt(pc, 16))) return Number(number);
    }
    return -1;
  }

  /** Each faulty line of a listing, in order, with its fault as `check` answers the first. */
  function faultsOf(listing) {
    const { text } = machine.faults(listing);
    return [...text.matchAll(/^listing line (\d+): (\d+) .*$/gm)].map(([line, place, kind]) =>
      ({ status: STATUS.LISTING, kind: Number(kind), place: Number(place), column: 0, text: "", line }));
  }

  return { LAST, MOST_OPERATIONS, endOf, faultsOf, find, firstAt, imageOf, stopOf };
})();
