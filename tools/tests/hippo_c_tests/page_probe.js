// Runs at the end of a page of hippo-c: uses its keys, and leaves what it sees as JSON in the title of the page.
const press = (key, target = document) => target.dispatchEvent(new KeyboardEvent('keydown', {key, bubbles: true, cancelable: true}));
const line = () => document.querySelector('.line.chosen')?.id;
const seen = () => ({chosen, name: data.groups[chosen]?.name, hidden: detail.hidden, line: line(), hash: location.hash, heading: detail.querySelector('h3')?.textContent});

function isInside(inner, outer) {
  const [a, b] = [inner, outer].map(node => node.getBoundingClientRect());
  return a.top >= b.top - 1 && a.bottom <= b.bottom + 1;
}

// The contrast of a text, by the rule of WCAG 2: from the luminance of its colour and of the first colour behind it that is not transparent.
const numbers = colour => colour.match(/[\d.]+/g).map(Number);

function behind(node) {
  for (; node; node = node.parentElement) {
    const colour = numbers(getComputedStyle(node).backgroundColor);
    if (colour.length < 4 || colour[3]) return colour;
  }
  return [255, 255, 255];
}

function luminance(colour) {
  const parts = colour.slice(0, 3).map(value => value / 255).map(value => value <= 0.04045 ? value / 12.92 : ((value + 0.055) / 1.055) ** 2.4);
  return 0.2126 * parts[0] + 0.7152 * parts[1] + 0.0722 * parts[2];
}

function contrast(name) {
  const node = document.querySelector(name);
  if (!node) return null;
  const both = [numbers(getComputedStyle(node).color), behind(node)].map(luminance).sort((a, b) => b - a);
  return (both[0] + 0.05) / (both[1] + 0.05);
}

const found = {
  rows: rows.length, lines: document.querySelectorAll('.source .line').length, start: seen(),
  dark: matchMedia('(prefers-color-scheme: dark)').matches, back: getComputedStyle(document.body).backgroundColor,
};
if (chosen >= 0) {
  found.view = [isInside(document.getElementById(`g${chosen}`), document.querySelector('nav')),
    isInside(document.getElementById(line()), document.getElementById('sources'))];
}
press('j');
found.j = seen();
press('k');
press('ArrowUp');
found.k = seen();
press('/');
found.slash = document.activeElement === filter;
press('j', filter);
found.typed = seen();
press('Escape', filter);
found.escape = [detail.hidden, document.activeElement === filter];
choose(rows.length - 1);
press('j');
found.last = seen();
filter.value = 'a[99';
filter.dispatchEvent(new Event('input'));
found.filtered = rows.filter(row => !row.hidden).length;
choose(0);
press('j');
found.skips = seen();
document.querySelectorAll('.badge')[5].click();
found.badge = seen();
const texts_of_the_page = ['h1', '.c', '.t', '.w', '.n', '.p', '.copy', '.tabs button', 'nav .file', '.hint', '.warning', 'nav .kind', 'nav .where', 'nav .count', 'nav .object', '.line code', '.reported code',
  '.added code', '.badge', 'aside h3', 'aside a', 'aside .hint', 'footer', 'kbd'];
found.contrasts = Object.fromEntries(texts_of_the_page.map(name => [name, contrast(name)]));
document.title = JSON.stringify(found);
