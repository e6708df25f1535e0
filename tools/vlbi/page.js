// What the page does by itself: it fills the tables, those first that are looked at, so that many do not keep it from opening; draws the large
// picture of a fringe; and sorts the rows of a table by a column.
'use strict';

const WIDE = 640, LEFT = 70;
const box = document.getElementById('large'), inside = box.querySelector('div');
const sections = [...document.querySelectorAll('section')];

function fill(section) {
  const rows = section && section.querySelector('script[type="text/html"]');
  if (rows) {
    section.querySelector('tbody').innerHTML = rows.textContent;
    rows.remove();
  }
}

const text = (x, y, words, more = '') => `<text x="${x}" y="${y}" font-size="11" ${more}>${words}</text>`;
const places = (from, to, many) => [...Array(many + 1).keys()].map(i => from + (to - from) * i / many);

function short(number) {
  if (number === 0) return '0';
  return Math.abs(number) < 0.01 || Math.abs(number) >= 1e5 ? number.toExponential(1) : String(+number.toPrecision(3));
}

// The frame of a plot at the height `y` and `high`, with the numbers and names of both axes, each [from, to, name].
function frame(y, high, across, up) {
  const share = (value, [from, to]) => (value - from) / ((to - from) || 1), middle = y + high / 2;
  let out = `<rect x="${LEFT}" y="${y}" width="${WIDE}" height="${high}" fill="none" stroke="#888"/>`;
  for (const value of places(across[0], across[1], 4)) {
    out += text(LEFT + WIDE * share(value, across), y + high + 14, short(value), 'text-anchor="middle"');
  }
  for (const value of places(up[0], up[1], 2)) {
    out += text(LEFT - 6, y + high - high * share(value, up) + 4, short(value), 'text-anchor="end"');
  }
  out += text(LEFT + WIDE / 2, y + high + 28, across[2], 'text-anchor="middle"');
  return out + text(12, middle, up[2], `text-anchor="middle" transform="rotate(-90 12 ${middle})"`);
}

const place = (values, i) => LEFT + WIDE * (i + .5) / Math.max(values.length, 1);

function line(values, y, high) {
  const points = [...values].map((value, i) => `${place(values, i)},${y + high - high * value / 255}`);
  return `<polyline fill="none" stroke="#1f5fa8" stroke-width="1.4" points="${points.join(' ')}"/>`;
}

// Phases as points, the fainter the smaller their amplitude.
function points(phases, amplitudes, y, high) {
  const point = (phase, i) => `<circle cx="${place(phases, i)}" cy="${y + high - high * phase / 255}" r="2.2" fill="#1f5fa8" ` +
    `opacity="${Math.max(.15, amplitudes[i] / 255)}"/>`;
  return [...phases].map((phase, i) => amplitudes[i] ? point(phase, i) : '').join('');
}

function show(link) {
  const section = link.closest('section'), reach = +section.dataset.reach, seconds = +section.dataset.seconds;
  const raw = Uint8Array.from(atob(link.dataset.d), sign => sign.charCodeAt(0));
  const [many, times, lowest, highest, top, late] = link.dataset.n.split(' ').map(Number);
  const [lags, lagPhases, over, phases] = [[0, many], [many, many], [2 * many, times], [2 * many + times, times]].map(
    ([from, length]) => raw.subarray(from, from + length));
  const lag = [-reach, reach, 'lag (µs)'], time = [0, seconds, 'time in the scan (s), at the lag nearest to the peak'];
  const unnamed = axis => [axis[0], axis[1], ''], degrees = [-180, 180, 'phase (°)'];
  let out = `<svg viewBox="0 0 ${WIDE + 90} 800" xmlns="http://www.w3.org/2000/svg" font-family="sans-serif">`;
  out += `<image href="${link.querySelector('img').src}" x="${LEFT}" y="10" width="${WIDE}" height="260" preserveAspectRatio="none" ` +
    'style="image-rendering:pixelated"/>' + frame(10, 260, lag, [lowest, highest, 'residual rate (Hz)']);
  out += line(lags, 320, 120) + frame(320, 120, lag, [0, top, `amplitude, ${link.dataset.u}`]);
  out += points(lagPhases, lags, 485, 60) + frame(485, 60, unnamed(lag), degrees);
  out += line(over, 575, 100) + frame(575, 100, unnamed(time), [0, late, 'amplitude']);
  out += points(phases, over, 700, 60) + frame(700, 60, time, degrees) + '</svg>';
  inside.innerHTML = `<button type="button">close</button>${title(link, section)}${out}`;
  box.classList.add('on');
}

// The scan, the baseline and the product, and below them what the row says.
function title(link, section) {
  const cells = [...link.closest('tr').cells].map(cell => cell.textContent.trim());
  const heads = [...link.closest('table').querySelectorAll('th')].map(head => head.textContent.trim());
  const said = heads.map((head, i) => head && i > 1 ? `${head}: <b>${cells[i]}</b>` : '').filter(Boolean);
  return `<h2>${section.querySelector('h2').textContent}: ${cells[0]} ${cells[1]}</h2><p>${said.join(' &nbsp; ')}</p>`;
}

function value(row, column) {
  const words = row.cells[column].textContent.replace('\u2212', '-').trim(), number = parseFloat(words);
  return isNaN(number) ? words : number;
}

function sort(head) {
  const body = head.closest('table').tBodies[0], down = head.dataset.down === '1' ? -1 : 1;
  const order = (a, b) => typeof a === 'number' && typeof b === 'number' ? a - b : String(a).localeCompare(String(b));
  body.append(...[...body.rows].sort((a, b) => down * order(value(a, head.cellIndex), value(b, head.cellIndex))));
  head.dataset.down = down === 1 ? '1' : '0';
}

sections.slice(0, 2).forEach(fill);
const near = new IntersectionObserver(seen => seen.filter(one => one.isIntersecting).forEach(one => fill(one.target)), { rootMargin: '1500px' });
sections.forEach(section => near.observe(section));
const idle = window.requestIdleCallback || (work => setTimeout(work, 50)), later = [...sections];
const next = () => { fill(later.shift()); if (later.length) idle(next); };
addEventListener('load', () => idle(next));
addEventListener('beforeprint', () => sections.forEach(fill));
addEventListener('click', event => {
  const link = event.target.closest('a.p'), head = event.target.closest('table.rows th');
  if (link) {
    event.preventDefault();
    show(link);
  } else if (head) {
    sort(head);
  } else if (event.target === box || event.target.closest('#large button')) {
    box.classList.remove('on');
  }
});
addEventListener('keydown', event => { if (event.key === 'Escape') box.classList.remove('on'); });
