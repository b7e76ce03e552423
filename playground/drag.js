/** Dragging a row's box to another row, up and down, by a mouse or a pen: a finger scrolls. */
const drag = (() => {
  const FAR_PIXELS = 6;

  const rowsOf = (place) => [...place.querySelectorAll("tbody tr")];

  /** The number of the row at a height of the window: the nearest one. */
  function rowAt(place, y) {
    const rows = rowsOf(place);
    const found = rows.findIndex((row) => y < row.getBoundingClientRect().bottom);
    return found < 0 ? rows.length - 1 : found;
  }

  function showTarget(place, index) {
    place.querySelector(".target")?.classList.remove("target");
    if (index !== null) rowsOf(place)[index]?.classList.add("target");
  }

  /** In `place`, boxes that `boxOf(target)` finds have rows; `move(from, to)` is called with the rows' numbers. */
  function over(place, boxOf, move) {
    let dragged = null;
    let wasDragged = false;

    function end(isDone) {
      const { from, to, isFar } = dragged;
      dragged = null;
      showTarget(place, null);
      wasDragged = isDone && isFar;
      if (wasDragged && to !== from) move(from, to);
    }

    place.addEventListener("pointerdown", (press) => {
      const box = boxOf(press.target);
      wasDragged = false;
      if (!box || press.button !== 0 || press.pointerType === "touch") return;
      const from = Number(box.dataset.index);
      dragged = { from, to: from, y: press.clientY, isFar: false };
      box.setPointerCapture(press.pointerId);
    });
    place.addEventListener("pointermove", (moved) => {
      if (!dragged) return;
      dragged.isFar ||= Math.abs(moved.clientY - dragged.y) > FAR_PIXELS;
      if (!dragged.isFar) return;
      dragged.to = rowAt(place, moved.clientY);
      showTarget(place, dragged.to);
    });
    place.addEventListener("pointerup", () => dragged && end(true));
    place.addEventListener("pointercancel", () => dragged && end(false));
    return { wasDragged: () => wasDragged };
  }

  return { over };
})();
