/** Tabs: arrow keys go from one to the next. */

/** @param {HTMLElement} list @param {(name: string) => void} onshow */
export function makeTabs(list, onshow) {
  const tabs = [...list.querySelectorAll('[role=tab]')];
  const nameOf = tab => tab.id.replace('tab-', '');
  const show = tab => {
    for (const it of tabs) {
      const is = it === tab;
      it.setAttribute('aria-selected', String(is));
      it.tabIndex = is ? 0 : -1;
      document.getElementById(it.getAttribute('aria-controls')).hidden = !is;
    }
    onshow(nameOf(tab));
  };
  tabs.forEach((tab, k) => {
    tab.addEventListener('click', () => show(tab));
    tab.addEventListener('keydown', event => {
      const by = {ArrowRight: 1, ArrowLeft: -1}[event.key];
      if (!by) return;
      const to = tabs[(k + by + tabs.length) % tabs.length];
      to.focus();
      show(to);
    });
  });
  const current = () => nameOf(tabs.find(it => it.getAttribute('aria-selected') === 'true'));
  return {show: name => show(tabs.find(it => nameOf(it) === name)), current};
}
