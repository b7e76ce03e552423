/** Files: what is opened from the disk or dropped onto the page, and what is downloaded. */
const files = (() => {
  const { element } = draw;
  const MOST_BYTES = 4_194_304;

  /** Reads a file: assembly by its name, else a listing or an order, by its text; nothing where it is too long. */
  async function read(file) {
    if (file.size > MOST_BYTES) return null;
    const text = await file.text();
    const isAssembly = /\.[sS]$/.test(file.name);
    const name = file.name.replace(/\.[^.]*$/, "") || file.name;
    return { name, text, isAssembly, isOrder: !isAssembly && orders.isOrder(text) };
  }

  /** Calls `take` with each file that the person opens or drops. */
  function watch(button, field, take) {
    button.addEventListener("click", () => field.click());
    field.addEventListener("change", async () => {
      const [file] = field.files;
      if (file) await take(file);
      field.value = "";
    });
    const hasFile = (moved) => [...moved.dataTransfer?.types ?? []].includes("Files");
    document.addEventListener("dragover", (moved) => {
      if (!hasFile(moved)) return;
      moved.preventDefault();
      document.body.classList.add("dropping");
    });
    document.addEventListener("dragleave", ({ relatedTarget }) => {
      if (!relatedTarget) document.body.classList.remove("dropping");
    });
    document.addEventListener("drop", (dropped) => {
      document.body.classList.remove("dropping");
      if (!hasFile(dropped)) return;
      dropped.preventDefault();
      take(dropped.dataTransfer.files[0]);
    });
  }

  function download(name, text) {
    const link = element("a", { download: name, href: URL.createObjectURL(new Blob([text])) });
    link.click();
    setTimeout(() => URL.revokeObjectURL(link.href), 1000);
  }

  return { download, read, watch };
})();
