/** A small window beside what was clicked: one at a time; Escape or a click elsewhere closes it. */

let open = null;

/** Closes the window that is open, if one is. */
export function closePopover() {
  open?.end();
  open = null;
}

/**
 * @param {Element} anchor what it belongs to, and what has the focus behind it
 * @param {string} title
 * @param {Node[]} content
 */
export function showPopover(anchor, title, content) {
  closePopover();
  const window_ = document.createElement('div'), heading = document.createElement('h3');
  window_.className = 'popover';
  window_.setAttribute('role', 'dialog');
  window_.setAttribute('aria-label', title);
  heading.textContent = title;
  window_.append(heading, ...content);
  document.body.append(window_);
  place(window_, anchor.getBoundingClientRect());
  const away = event => { if (!window_.contains(event.target)) closePopover(); };
  const key = event => { if (event.key === 'Escape') { closePopover(); anchor.focus(); } };
  setTimeout(() => document.addEventListener('pointerdown', away));
  window_.addEventListener('keydown', key);
  open = {end: () => { document.removeEventListener('pointerdown', away); window_.remove(); }};
  window_.querySelector('input, button, select')?.focus();
}

function place(window_, at) {
  const width = window_.offsetWidth, height = window_.offsetHeight;
  const left = Math.max(8, Math.min(at.left, innerWidth - width - 8));
  const top = at.bottom + 6 + height > innerHeight ? Math.max(8, at.top - height - 6) : at.bottom + 6;
  window_.style.left = `${left}px`;
  window_.style.top = `${top}px`;
}

/** A button. @param {string} text @param {() => void} act */
export function button(text, act) {
  const made = document.createElement('button');
  made.type = 'button';
  made.textContent = text;
  made.addEventListener('click', () => { closePopover(); act(); });
  return made;
}

/** A field with a label around it. */
export function field(text, value, placeholder = '') {
  const label = document.createElement('label'), input = document.createElement('input');
  input.type = 'text';
  input.value = value;
  input.placeholder = placeholder;
  input.spellcheck = false;
  label.append(text, input);
  return {label, input};
}
