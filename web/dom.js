"use strict";
// Small helpers to make and find elements. Texts only ever become text.

export const by_id = id => document.getElementById(id);

function filled(element, attributes, children) {
  for (const [key, value] of Object.entries(attributes)) if (value !== undefined) element.setAttribute(key, value);
  element.append(...children);
  return element;
}

// An element with attributes and children; a text child is a text.
export const made = (name, attributes = {}, ...children) => filled(document.createElement(name), attributes, children);

// The same, of a drawing.
export const drawn = (name, attributes = {}, ...children) => filled(document.createElementNS("http://www.w3.org/2000/svg", name), attributes, children);

// Runs `work` for the last of many calls: while it works, later calls become one.
export function latest(work) {
  let wanted = false, working = false;
  return async () => {
    wanted = true;
    if (working) return;
    working = true;
    try {
      while (wanted) {
        wanted = false;
        await work();
      }
    } finally {
      working = false;
    }
  };
}

export function show_tip(event, text) {
  const tip = by_id("tip");
  tip.textContent = text;
  tip.hidden = false;
  const { innerWidth: wide, innerHeight: high } = window, box = tip.getBoundingClientRect();
  tip.style.left = `${Math.max(4, Math.min(event.clientX + 14, wide - box.width - 8))}px`;
  tip.style.top = `${event.clientY + 18 + box.height > high ? event.clientY - box.height - 10 : event.clientY + 18}px`;
}

export function hide_tip() {
  by_id("tip").hidden = true;
}

// Shows a tip for whoever points, touches or has the focus there: `text_of` says it of a pointer event, or of none.
export function tell_by_tip(element, text_of) {
  for (const kind of ["pointermove", "pointerdown"]) element.addEventListener(kind, event => show_tip(event, text_of(event)));
  element.addEventListener("pointerleave", event => event.pointerType === "mouse" && hide_tip());
  element.addEventListener("focus", () => {
    const { left, bottom } = element.getBoundingClientRect();
    if (element.matches(":focus-visible")) show_tip({ clientX: left, clientY: bottom - 12 }, text_of(null));
  });
  element.addEventListener("blur", hide_tip);
}

// Copies a text, and returns whether that went well.
export async function copied(text) {
  try {
    await navigator.clipboard.writeText(text);
    return true;
  } catch {
    return false;
  }
}
