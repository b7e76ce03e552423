/** Orders that are drawn: by a seed, by turns or by one hart; the same seed and listing give the same order. */
const race = (() => {
  const GREATEST_SEED = 4_294_967_295;

  /** Draws digits by xorshift32 (13, 17, 5), each number modulo the count of harts. */
  function seeded(seed, harts) {
    let number = seed >>> 0;
    return () => {
      number ^= number << 13;
      number ^= number >>> 17;
      number ^= number << 5;
      return (number >>> 0) % harts;
    };
  }

  /** Draws the harts in turn, from one on. */
  function inTurn(first, harts) {
    let next = first;
    return () => {
      const hart = next % harts;
      next = hart + 1;
      return hart;
    };
  }

  /** A digit is dropped where its hart has stopped. `stopOf` gives the step that is refused, or -1. */
  function draw(seed, count, harts, stopOf) {
    const next = seeded(seed, harts);
    let order = Array.from({ length: count }, next);
    for (let tries = 0; tries < harts; tries += 1) {
      const stop = stopOf(order.join(""));
      if (stop < 0) break;
      const stopped = order[stop];
      order = order.filter((hart, index) => index < stop || hart !== stopped);
    }
    return order.join("");
  }

  /**
   * Steps of the harts that run, as `next` draws them, until all of these have stopped, or so many steps are drawn.
   * Where a step is refused its hart has stopped: its steps from there on are taken out, and others are drawn.
   */
  function drawUntilStopped(next, running, most, stopOf) {
    const going = new Set(running);
    let order = [];
    while (going.size > 0) {
      while (order.length < most) {
        const hart = next();
        if (going.has(hart)) order.push(hart);
      }
      const stop = stopOf(order.join(""));
      if (stop < 0) break;
      const stopped = order[stop];
      going.delete(stopped);
      order = order.filter((hart, index) => index < stop || hart !== stopped);
      if (going.size === 0) order.length = stop;
    }
    return order.join("");
  }

  return { GREATEST_SEED, draw, drawUntilStopped, inTurn, seeded };
})();
