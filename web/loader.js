// Runs the page's script, which is packed in the page's one file. The loader unpacks the text of
// the script into a new element. The browser runs that element, since the page's policy has the
// SHA-256 sum of the script. Where nothing is packed, index.html names main.js itself.

import { bytesOfDigits, inflated, textOf } from "./unpacking.js";

/** @param {Uint8Array} bytes */
function run(bytes) {
  const script = document.createElement("script");
  script.type = "module";
  script.textContent = new TextDecoder().decode(bytes);
  // A module runs later, without its element too. So a saved page has the packed text alone.
  document.head.append(script);
  script.remove();
}

inflated(bytesOfDigits(textOf("script"))).then(run);
