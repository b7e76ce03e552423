/**
 * Goes from state to state by the facts of events, forward and back.
 *
 * The rules: what an event `sets`, `leaves` and `clears` is so; a step that is done and sets no PCC
 * adds 4 to its PCC's address modulo 2^64; a halt and a trap set the hart's status.
 */
const replay = (() => {
  const ADDRESS_SPACE = 1n << 64n;

  const hex64 = (number) => number.toString(16).padStart(16, "0");

  const isNull = (value) => !value.tag && /^[0_]+$/.test(value.word);

  /** The PCC after a step that goes on to the next instruction. */
  function nextPcc(pcc) {
    const [upper, address] = pcc.word.split("_");
    const next = (BigInt("0x" + address) + 4n) % ADDRESS_SPACE;
    return { ...pcc, word: `${upper}_${hex64(next)}` };
  }

  /** What each place has after an event, in the order in which it is written. */
  function writesOf(state, event) {
    const writes = [];
    for (const [name, value] of Object.entries(event.sets ?? {})) {
      writes.push([event.hart, name, value]);
    }
    for (const [address, value] of Object.entries(event.leaves ?? {})) {
      writes.push(["mem", address, value]);
    }
    if (event.outcome === "sweep") {
      for (const name of Object.keys(event.clears ?? {})) {
        const [owner, place] = name.startsWith("mem ") ? ["mem", name.slice(4)]
          : [Number(name.split(":")[0]), name.split(":")[1]];
        const { word } = valueAt(state, owner, place);
        writes.push([owner, place, { tag: false, word }]);
      }
    }
    if (event.outcome === "done" && event.sets?.pcc === undefined) {
      writes.push([event.hart, "pcc", nextPcc(state.harts[event.hart].pcc)]);
    }
    return writes;
  }

  function valueAt(state, owner, place) {
    if (owner === "mem") return state.mem[place] ?? draw.NULL;
    return place === "pcc" ? state.harts[owner].pcc : state.harts[owner].regs[place] ?? draw.NULL;
  }

  /** Null values are left out of a state, as reports leave them out. */
  function put(state, owner, place, value) {
    if (place === "pcc") {
      state.harts[owner].pcc = value;
      return;
    }
    const values = owner === "mem" ? state.mem : state.harts[owner].regs;
    if (isNull(value)) delete values[place];
    else values[place] = value;
  }

  /** The status after an event, as members of a hart; nothing where it goes on running. */
  function statusAfter(event) {
    if (event.outcome === "halt") return { status: "halted" };
    if (event.outcome === "trap") {
      return { status: "trapped", cause: event.cause, reg: event.reg };
    }
    return null;
  }

  function changeStatus(hart, { status, cause, reg }) {
    delete hart.cause;
    delete hart.reg;
    hart.status = status;
    if (cause !== undefined) Object.assign(hart, { cause, reg });
  }

  /** Does an event, and gives what undoes it. */
  function apply(state, event) {
    const writes = writesOf(state, event);
    const old = writes.map(([owner, place]) => [owner, place, valueAt(state, owner, place)]);
    for (const [owner, place, value] of writes) put(state, owner, place, value);
    const status = statusAfter(event);
    const hart = status && state.harts[event.hart];
    const oldStatus = status && { status: hart.status, cause: hart.cause, reg: hart.reg };
    if (status) changeStatus(hart, status);
    return { old, status: oldStatus, hart: event.hart };
  }

  function undo(state, { old, status, hart }) {
    for (const [owner, place, value] of [...old].reverse()) put(state, owner, place, value);
    if (status) changeStatus(state.harts[hart], status);
  }

  /** The places that an event changed, as `view.differences` names them. */
  function changesOf(state, { old, status, hart }) {
    const changed = new Map();
    for (const [owner, place, before] of old) {
      const now = valueAt(state, owner, place);
      const name = owner === "mem" ? `mem ${place}` : `${owner}:${place}`;
      if (!view.sameValue(before, now)) {
        changed.set(name, before.tag && !now.tag);
      }
    }
    if (status) changed.set(`${hart}:status`, false);
    return changed;
  }

  /** A run that can be looked at after any count of its events. */
  function ofRun(opening, events) {
    const state = structuredClone(opening);
    const undos = [];
    /** The state after so many events, and what the last of them changed. */
    function at(count) {
      while (undos.length < count) undos.push(apply(state, events[undos.length]));
      while (undos.length > count) undo(state, undos.pop());
      const changed = count > 0 ? changesOf(state, undos[count - 1]) : new Map();
      return { state, changed };
    }
    return { at };
  }

  return { ofRun };
})();
