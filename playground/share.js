/**
 * Links: `#1.` and the base64url of raw deflate of the listing, a byte 0 and the order; then, each after `&`, `at=` a
 * position, `name=` a name, `asm=1` where assembly is in the place of the listing, `ask=` a question about orders,
 * and `embed=1`.
 */
const share = (() => {
  const VERSION = "1.";
  const MOST_CHARACTERS = 32_000;
  /** More bytes than a listing and an order can have that a link is made for. */
  const MOST_BYTES = 4_194_304;

  async function through(bytes, stream) {
    const answer = new Response(new Blob([bytes]).stream().pipeThrough(stream));
    return new Uint8Array(await answer.arrayBuffer());
  }

  /** The bytes that come out of a stream, of which there are not too many. */
  async function inflated(bytes) {
    const reader = new Blob([bytes]).stream()
      .pipeThrough(new DecompressionStream("deflate-raw")).getReader();
    const parts = [];
    let count = 0;
    for (;;) {
      const { done, value } = await reader.read();
      if (done) break;
      count += value.length;
      if (count > MOST_BYTES) throw new RangeError("too long");
      parts.push(value);
    }
    return new Uint8Array(await new Blob(parts).arrayBuffer());
  }

  function toBase64url(bytes) {
    let text = "";
    for (let at = 0; at < bytes.length; at += 8192) {
      text += String.fromCharCode(...bytes.subarray(at, at + 8192));
    }
    return btoa(text).replaceAll("+", "-").replaceAll("/", "_").replaceAll("=", "");
  }

  function fromBase64url(text) {
    if (!/^[A-Za-z0-9_-]*$/.test(text)) throw new RangeError("no base64url");
    return Uint8Array.from(atob(text.replaceAll("-", "+").replaceAll("_", "/")),
      (one) => one.charCodeAt(0));
  }

  /** The bytes of a part of the page, which has them as base64 of raw deflate. */
  const unpacked = (text) => inflated(Uint8Array.from(atob(text), (one) => one.charCodeAt(0)));

  /** The fragment of a listing and an order, with what else it says. */
  async function fragmentOf(listing, order, more = {}) {
    const bytes = new TextEncoder().encode(`${listing}\0${order}`);
    const data = toBase64url(await through(bytes, new CompressionStream("deflate-raw")));
    const words = Object.entries(more).map(([key, value]) => `&${key}=${encodeURIComponent(value)}`);
    return `#${VERSION}${data}${words.join("")}`;
  }

  /** What stands after the data: a position and a name, where they can be read; whether it is assembly; a question. */
  function wordsOf(parts) {
    const words = new Map(parts.map((part) => part.split("=")));
    const at = /^\d{1,6}$/.test(words.get("at") ?? "") ? Number(words.get("at")) : undefined;
    const textOf = (key) => decodeURIComponent(words.get(key) ?? "");
    return { at, name: textOf("name").slice(0, 60), isAssembly: words.get("asm") === "1", ask: textOf("ask") };
  }

  /** Listing, order, position and name of a fragment, or nothing where it can't be read. */
  async function read(fragment) {
    if (!fragment.startsWith(`#${VERSION}`)) return null;
    try {
      const [data, ...parts] = fragment.slice(1 + VERSION.length).split("&");
      const [listing, order, ...more] = new TextDecoder("utf-8", { fatal: true })
        .decode(await inflated(fromBase64url(data))).split("\0");
      return order === undefined || more.length > 0 ? null : { listing, order, ...wordsOf(parts) };
    } catch {
      return null;
    }
  }

  /** Whether the page is to be shown within another. */
  const isEmbedded = ({ hash, search }) => /[#&]embed=1(&|$)/.test(hash)
    || new URLSearchParams(search).get("embed") === "1";

  return { MOST_CHARACTERS, fragmentOf, isEmbedded, read, unpacked };
})();
