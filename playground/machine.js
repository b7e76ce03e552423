/**
 * The simulator, as calls over texts. It computes nothing itself: a call puts its texts into the
 * module's memory, and reads what is answered. A worker has its own, made of this function's text.
 */
const machineCalls = () => {
  /** Room for every report: the largest has less than 15,800,000 bytes. */
  const ROOM = 16_777_200;
  /** Room for a line. */
  const LINE_ROOM = 4096;
  /** Room for an answer about all orders, which would be searched again where it needs more. */
  const SEARCH_ROOM = 67_108_864;
  const ANSWER_BYTES = 40;
  const STATUS = {
    DONE: 0, LISTING: 1, ORDER: 2, STEP: 3, MEMORY: 4, ROOM: 5, NUMBER: 6, ASSEMBLY: 7, MAP: 8, NAME: 9,
    CONDITION: 10, ITEMS: 11, PROPERTIES: 12,
  };
  const OUT_OF_MEMORY = { status: STATUS.MEMORY, kind: 0, place: 0, column: 0, text: "", line: "memory" };

  const encoder = new TextEncoder();
  const decoder = new TextDecoder();
  let compiled = null;
  let instance = null;
  /** The memory of an instance grows to so many bytes, where the page says how many. */
  let most = null;

  /** Takes the module: its bytes, or what another machine made of them. */
  function begin(module) {
    compiled = module instanceof WebAssembly.Module ? module : new WebAssembly.Module(module);
    instance = null;
  }

  /** The module's calls. After a trap, or where memory ran out, they are those of a new instance. */
  function calls() {
    if (!instance) {
      instance = new WebAssembly.Instance(compiled, {});
      if (most !== null) instance.exports.page_limit(BigInt(most));
    }
    return instance.exports;
  }

  const bytesAt = (exports, place, count) =>
    new Uint8Array(exports.memory.buffer, Number(place), count);

  /** Puts bytes into the module's memory, and notes where. Nothing where there is no room. */
  function put(exports, bytes, places) {
    const place = exports.page_room(BigInt(bytes.length));
    if (place === 0n) return false;
    places.push(place);
    bytesAt(exports, place, bytes.length).set(bytes);
    return true;
  }

  /** What is answered: numbers, the text and the fault's line. */
  function answerAt(exports, answer, out) {
    const view = new DataView(exports.memory.buffer, Number(answer), ANSWER_BYTES);
    const [status, kind] = [view.getUint32(0, true), view.getUint32(4, true)];
    const [place, column, length, said] = [8, 16, 24, 32].map((at) => Number(view.getBigUint64(at, true)));
    if (status === STATUS.ROOM) return { status, kind, place, column, needed: length, text: "", line: "" };
    return {
      status, kind, place, column,
      text: decoder.decode(bytesAt(exports, out, length)),
      line: decoder.decode(bytesAt(exports, out + BigInt(length), said)).trimEnd(),
    };
  }

  /** One call in the instance that there is, with so much room for its answer. */
  function callWith(name, texts, numbers, room) {
    const exports = calls();
    const places = [];
    const parts = texts.map((text) => (typeof text === "string" ? encoder.encode(text) : text));
    const isPut = parts.every((bytes) => put(exports, bytes, places));
    const out = isPut ? exports.page_room(BigInt(room)) : 0n;
    const answer = out === 0n ? 0n : exports.page_room(BigInt(ANSWER_BYTES));
    if (answer === 0n) {
      instance = null;
      return OUT_OF_MEMORY;
    }
    const words = parts.flatMap((bytes, index) => [places[index], BigInt(bytes.length)]);
    exports[name](...words, ...numbers, out, BigInt(room), answer);
    const answered = answerAt(exports, answer, out);
    [...places, out, answer].forEach(exports.page_free);
    if (answered.status === STATUS.MEMORY) instance = null;
    return answered;
  }

  /**
   * Calls the module: the texts, then the numbers. An answer has `status`, `kind`, `place` and
   * `column` of the fault, the `text`, and the fault's `line`.
   */
  function call(name, texts, numbers = [], room = ROOM) {
    try {
      const answered = callWith(name, texts, numbers, room);
      if (answered.status !== STATUS.ROOM) return answered;
      return callWith(name, texts, numbers, answered.needed + 256);
    } catch (trap) {
      instance = null;
      if (trap instanceof WebAssembly.RuntimeError) return OUT_OF_MEMORY;
      throw trap;
    }
  }

  /** How many bytes of memory the instance has now. */
  const memoryBytes = () => (instance ? instance.exports.memory.buffer.byteLength : 0);

  /** Memory grows to so many bytes from now on; an instance that has more is no longer used. */
  function limit(bytes) {
    most = bytes;
    if (memoryBytes() > bytes) instance = null;
    instance?.exports.page_limit(BigInt(bytes));
  }

  /** Whether the module has a call. */
  const has = (name) => calls()[name] !== undefined;

  return {
    STATUS, begin, has, limit, memoryBytes,
    compiled: () => compiled,
    check: (listing) => call("cheri_check", [listing], [], LINE_ROOM),
    faults: (listing) => call("cheri_faults", [listing]),
    run: (listing, order) => call("cheri_run", [listing, order]),
    json: (listing, order) => call("cheri_json", [listing, order]),
    explain: (listing, order, from, to) => call("cheri_explain", [listing, order], [from, to]),
    explainMap: (listing, order, map, from, to) => call("cheri_explain_map", [listing, order, map], [from, to]),
    look: (listing, order, at, from, to) => call("cheri_look", [listing, order], [at, from, to]),
    bounds: (base, len) => call("cheri_bounds", [base, len], [], LINE_ROOM),
    decode: (word) => call("cheri_decode", [word], [], LINE_ROOM),
    assemble: (text) => call("cheri_assemble", [text]),
    map: (text, name) => call("cheri_map", [text, name]),
    outcomes: (listing, limit) => call("cheri_outcomes", [listing], [limit], SEARCH_ROOM),
    rows: (listing, items, limit) => call("cheri_outcome_rows", [listing, items], [limit], SEARCH_ROOM),
    find: (listing, condition, limit) => call("cheri_find", [listing, condition], [limit], SEARCH_ROOM),
    verdicts: (listing, limit) => call("cheri_verdicts", [listing], [limit], SEARCH_ROOM),
    sample: (listing, runs, seed, length, depth) =>
      call("cheri_sample", [listing], [runs, seed, length, depth], SEARCH_ROOM),
  };
};

const machine = machineCalls();
