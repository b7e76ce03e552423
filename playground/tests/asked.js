/** What the tests ask in a page of both browsers: these functions run there, with the page's own names. */
"use strict";

const isReady = () => document.documentElement?.dataset.ready === "yes";

/** The names of those cases that the module answers otherwise than the native programs. */
function differing(part) {
  const bytesOf = (text) => Uint8Array.from(text, (one) => one.charCodeAt(0));
  const same = (one, other) => ["status", "kind", "place", "column", "text", "line"]
    .every((name) => one[name] === other[name]);
  return part.filter((one) => {
    const texts = [bytesOf(one.listing), bytesOf(one.order)];
    return machine.check(texts[0]).line !== one.check.line || !same(machine.run(...texts), one.run)
      || !same(machine.json(...texts), one.json)
      || (one.explain && machine.has("cheri_explain") && !same(machine.explain(...texts, 0, 4_294_967_295), one.explain));
  }).map(({ name }) => name);
}

/** The names of those runs that have a position where the module answers otherwise than the native program. */
function differingLooks(part) {
  const same = (one, other) => JSON.stringify(one) === JSON.stringify(other);
  return part.filter(({ listing, order, look, facts }) => look.some((state, at) => {
    const found = JSON.parse(machine.look(listing, order, at, 0, 4_294_967_295).text);
    return found.at !== at || !same(found.state, state) || !same(found.events, facts.events);
  })).map(({ name }) => name);
}

/** The names of those cases of assembly that the module answers otherwise than the model, or the native explanation. */
function differingAssembly(part) {
  const same = (one, other) => ["status", "kind", "place", "column", "text", "line"]
    .every((name) => one[name] === other[name]);
  return part.filter((one) => {
    const text = Uint8Array.from(one.assembly, (char) => char.charCodeAt(0));
    return !same(machine.assemble(text), one.assemble) || !same(machine.map(text, one.file), one.map)
      || (one.explain ?? []).some((told) =>
        !same(machine.explainMap(one.assemble.text, one.order, told.map, 0, 4_294_967_295), told));
  }).map(({ name }) => name);
}

/** The milliseconds of the call for a position of a run, and until it is drawn and laid out: medians. */
function positionTimes(listing, order) {
  const field = (id) => document.getElementById(id);
  const median = (work) => {
    const times = Array.from({ length: 15 }, (_, count) => {
      document.body.getBoundingClientRect();
      const began = performance.now();
      work(611 + 281 * count);
      return performance.now() - began;
    });
    return times.sort((a, b) => a - b)[7];
  };
  field("listing").value = listing;
  field("order").value = order;
  field("order").dispatchEvent(new Event("input"));
  return [median((at) => machine.look(listing, order, at, at - 100, at + 100)), median((at) => {
    field("slider").value = at;
    field("slider").dispatchEvent(new Event("input"));
    document.body.getBoundingClientRect();
  })];
}

module.exports = { differing, differingAssembly, differingLooks, isReady, positionTimes };
