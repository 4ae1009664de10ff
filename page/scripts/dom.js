// Elements of the page.

// Makes an element. Properties whose names begin with "on" are listeners; `class`, `for` and those with a hyphen are attributes.
export function h(tag, properties = {}, ...children) {
  const element = document.createElement(tag);
  for (const [name, value] of Object.entries(properties)) {
    if (value === undefined || value === null || value === false) continue;
    if (name.startsWith("on")) element.addEventListener(name.slice(2), value);
    else if (name === "class" || name === "for" || name.includes("-")) element.setAttribute(name, value);
    else element[name] = value;
  }
  element.append(...children.flat(Infinity).filter((child) => child !== null && child !== undefined && child !== false && child !== ""));
  return element;
}

export function replace(element, ...children) {
  element.replaceChildren(...children.flat(Infinity).filter(Boolean));
  return element;
}

// Says something to screen readers.
export function announce(text) {
  const place = document.getElementById("announced");
  place.textContent = "";
  setTimeout(() => {
    place.textContent = text;
  }, 50);
}

export const sizeText = (bytes) => {
  if (bytes < 1000) return `${bytes} bytes`;
  const [value, unit] = bytes < 1e6 ? [bytes / 1e3, "KB"] : bytes < 1e9 ? [bytes / 1e6, "MB"] : [bytes / 1e9, "GB"];
  return `${value < 10 ? value.toFixed(1) : Math.round(value)} ${unit}`;
};

// Offers a file to be saved. The link keeps it only until the click is over.
export function save(name, blob) {
  const link = h("a", { href: URL.createObjectURL(blob), download: name });
  link.click();
  setTimeout(() => URL.revokeObjectURL(link.href), 60_000);
}

// A button that copies a text and says so.
export function copyButton(text, what) {
  const button = h("button", { type: "button", class: "quiet", "aria-label": `Copy ${what}`, onclick: copy }, "Copy");
  async function copy() {
    const isDone = await copied(text);
    button.textContent = isDone ? "Copied" : "Select it and copy";
    announce(isDone ? `${what} copied` : "The browser doesn't allow copying. Select the text and copy it.");
    setTimeout(() => {
      button.textContent = "Copy";
    }, 2000);
  }
  return button;
}

// Pages opened from disk may not use the clipboard of newer browsers, so the older way is tried too.
async function copied(text) {
  try {
    await navigator.clipboard.writeText(text);
    return true;
  } catch {
    const field = h("textarea", { value: text, class: "unseen" });
    document.body.append(field);
    field.select();
    const isDone = document.execCommand("copy");
    field.remove();
    return isDone;
  }
}

// Runs a task when the browser has drawn what was changed.
export const afterDrawing = () => new Promise((resume) => requestAnimationFrame(() => setTimeout(resume)));
