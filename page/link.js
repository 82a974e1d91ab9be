// @ts-check
/* A link that holds a whole moment: what follows # is packed text of JSON, so that a case can be sent to a colleague. */
"use strict";
(function (root) {
  // No moment with two configurations comes near either: of a text that is packed, and of what it grows to.
  const LONGEST_LINK = 400000; // letters
  const MOST_HELD = 1000000; // bytes

  /** @type {(bytes: Uint8Array, stream: any) => ReadableStream} */
  const through = (bytes, stream) => new Blob([bytes]).stream().pipeThrough(stream);

  /** The bytes of a stream; where there are more than so many, it is read no further, and null.
   *  @type {(stream: ReadableStream, most: number) => Promise<Uint8Array | null>} */
  async function bytesIn(stream, most) {
    const parts = [];
    let count = 0;
    for (const reader = stream.getReader(); ;) {
      const { done, value } = await reader.read();
      if (done) return new Uint8Array(await new Blob(parts).arrayBuffer());
      parts.push(value);
      count += value.length;
      if (count <= most) continue;
      await reader.cancel();
      return null;
    }
  }

  /** The part of a link after #, for a value; null where it holds more than a link may.
   *  @type {(value: any) => Promise<string | null>} */
  async function pack(value) {
    const held = daa.bytesOf(JSON.stringify(value));
    const bytes = await bytesIn(through(held, new CompressionStream("deflate-raw")), MOST_HELD);
    if (!bytes || held.length > MOST_HELD) return null;
    const text = btoa(Array.from(bytes, (byte) => String.fromCharCode(byte)).join(""));
    if (text.length > LONGEST_LINK) return null;
    return `m=${text.replaceAll("+", "-").replaceAll("/", "_").replace(/=+$/, "")}`;
  }

  /** The value in the part of a link after #, or null where none can be read there.
   *  @type {(hash: string) => Promise<any>} */
  async function unpack(hash) {
    if (hash.length > LONGEST_LINK + 3) return null;
    const text = new URLSearchParams(hash.replace(/^#/, "")).get("m");
    if (!text) return null;
    try {
      const letters = atob(text.replaceAll("-", "+").replaceAll("_", "/"));
      const packed = Uint8Array.from(letters, (letter) => letter.charCodeAt(0));
      const bytes = await bytesIn(through(packed, new DecompressionStream("deflate-raw")), MOST_HELD);
      return bytes && JSON.parse(new TextDecoder().decode(bytes));
    } catch {
      return null;
    }
  }

  Object.assign(root.daa, { pack, unpack });
})(globalThis);
