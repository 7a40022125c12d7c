// A QR code (ISO/IEC 18004) of a text, as an SVG: bytes, error correction M, versions 1 to 10.

const SVG = 'http://www.w3.org/2000/svg';

// By version from 1: how many words of error correction each block has, and the sizes of the blocks in data words.
const BLOCKS = [
  [10, [16]], [16, [28]], [26, [44]], [18, [32, 32]], [24, [43, 43]], [16, [27, 27, 27, 27]], [18, [31, 31, 31, 31]],
  [22, [38, 38, 39, 39]], [22, [36, 36, 36, 37, 37]], [26, [43, 43, 43, 43, 44]],
];
const CENTRES = [[], [6, 18], [6, 22], [6, 26], [6, 30], [6, 34], [6, 22, 38], [6, 24, 42], [6, 26, 46], [6, 28, 50]];

// The field of 256 elements over x^8 + x^4 + x^3 + x^2 + 1: powers of x, and their exponents.
const POWERS = new Uint8Array(512);
const LOGS = new Uint8Array(256);
for (let exponent = 0, power = 1; exponent < 255; exponent += 1) {
  POWERS[exponent] = power;
  POWERS[exponent + 255] = power;
  LOGS[power] = exponent;
  power = (power << 1) ^ (power & 128 ? 0x11d : 0);
}

const times = (left, right) => (left === 0 || right === 0 ? 0 : POWERS[LOGS[left] + LOGS[right]]);

// The remainder of a block by the generator of so many words (Reed and Solomon).
function correctionOf(block, size) {
  let generator = [1];
  for (let root = 0; root < size; root += 1) {
    generator = [...generator, 0].map((factor, place) => factor ^ times(generator[place - 1] ?? 0, POWERS[root]));
  }
  const rest = [...block, ...new Array(size).fill(0)];
  for (let place = 0; place < block.length; place += 1) {
    const lead = rest[place];
    generator.forEach((factor, behind) => { rest[place + behind] ^= times(factor, lead); });
  }
  return rest.slice(block.length);
}

const sum = numbers => numbers.reduce((left, right) => left + right, 0);

const bitsOf = (value, size) => Array.from({ length: size }, (_, place) => (value >> (size - 1 - place)) & 1);

// The data words: the mode, the count, the bytes, and what fills the rest.
function dataOf(bytes, version, size) {
  const bits = [...bitsOf(4, 4), ...bitsOf(bytes.length, version < 10 ? 8 : 16), ...[...bytes].flatMap(byte => bitsOf(byte, 8))];
  bits.push(...new Array(Math.min(4, size * 8 - bits.length)).fill(0));
  while (bits.length % 8 !== 0) bits.push(0);
  const words = Array.from({ length: bits.length / 8 }, (_, place) => parseInt(bits.slice(place * 8, place * 8 + 8).join(''), 2));
  for (let pad = 0; words.length < size; pad ^= 1) words.push(pad === 0 ? 0xec : 0x11);
  return words;
}

// Words of several blocks, taken in turns.
const interleaved = blocks => Array.from({ length: Math.max(...blocks.map(block => block.length)) }, (_, place) => blocks.map(block => block[place]))
  .flat().filter(word => word !== undefined);

function wordsOf(bytes, version) {
  const [size, sizes] = BLOCKS[version - 1];
  const data = dataOf(bytes, version, sum(sizes));
  const blocks = sizes.map((length, place) => data.slice(sum(sizes.slice(0, place)), sum(sizes.slice(0, place)) + length));
  return [...interleaved(blocks), ...interleaved(blocks.map(block => correctionOf(block, size)))];
}

// What follows a value in its code: the remainder by a polynomial.
function remainder(value, polynomial, size) {
  let rest = value << size;
  for (let bit = 31 - Math.clz32(rest); rest >> size !== 0; bit = 31 - Math.clz32(rest)) rest ^= polynomial << (bit - size);
  return rest;
}

// Everything but the data: null where a bit of data goes.
function frameOf(version) {
  const size = 17 + 4 * version;
  const grid = Array.from({ length: size }, () => new Array(size).fill(null));
  const set = (row, column, isDark) => { if (row >= 0 && column >= 0 && row < size && column < size) grid[row][column] = isDark ? 1 : 0; };
  const square = (row, column, reach, isDark) => {
    for (let down = -reach; down <= reach; down += 1) {
      for (let across = -reach; across <= reach; across += 1) set(row + down, column + across, isDark(Math.max(Math.abs(down), Math.abs(across))));
    }
  };
  for (const [row, column] of [[3, 3], [3, size - 4], [size - 4, 3]]) square(row, column, 4, ring => ring !== 2 && ring !== 4);
  for (let place = 8; place < size - 8; place += 1) {
    set(6, place, place % 2 === 0);
    set(place, 6, place % 2 === 0);
  }
  const centres = CENTRES[version - 1];
  const last = centres.at(-1);
  const isCorner = (row, column) => (row === 6 && column === 6) || (row === 6 && column === last) || (row === last && column === 6);
  for (const row of centres) for (const column of centres) if (!isCorner(row, column)) square(row, column, 2, ring => ring !== 1);
  writeFormat(set, size, 0);
  if (version >= 7) {
    const code = (version << 12) | remainder(version, 0x1f25, 12);
    for (let bit = 0; bit < 18; bit += 1) {
      set(Math.floor(bit / 3), size - 11 + bit % 3, code >> bit & 1);
      set(size - 11 + bit % 3, Math.floor(bit / 3), code >> bit & 1);
    }
  }
  return grid;
}

// The level M and the mask, twice, and the dark module.
function writeFormat(set, size, mask) {
  const code = ((mask << 10) | remainder(mask, 0x537, 10)) ^ 0x5412;
  const places = [0, 1, 2, 3, 4, 5, 7, 8];
  for (let bit = 0; bit < 15; bit += 1) {
    const isDark = code >> bit & 1;
    if (bit < 8) {
      set(places[bit], 8, isDark);
      set(8, size - 1 - bit, isDark);
    } else {
      set(8, places[14 - bit], isDark);
      set(size - 15 + bit, 8, isDark);
    }
  }
  set(size - 8, 8, 1);
}

const MASKS = [
  (row, column) => (row + column) % 2, row => row % 2, (row, column) => column % 3, (row, column) => (row + column) % 3,
  (row, column) => (Math.floor(row / 2) + Math.floor(column / 3)) % 2, (row, column) => row * column % 2 + row * column % 3,
  (row, column) => (row * column % 2 + row * column % 3) % 2, (row, column) => ((row + column) % 2 + row * column % 3) % 2,
];

// The data in its way, two columns wide, up and down from the right.
function filled(frame, words, mask) {
  const size = frame.length;
  const grid = frame.map(row => [...row]);
  let bit = 0;
  for (let right = size - 1, isUp = true; right > 0; right -= right === 8 ? 3 : 2, isUp = !isUp) {
    for (let step = 0; step < size; step += 1) {
      const row = isUp ? size - 1 - step : step;
      for (const column of [right, right - 1].filter(column => frame[row][column] === null)) {
        const data = (words[bit >> 3] ?? 0) >> (7 - (bit & 7)) & 1;
        grid[row][column] = data ^ (MASKS[mask](row, column) === 0 ? 1 : 0);
        bit += 1;
      }
    }
  }
  writeFormat((row, column, isDark) => { grid[row][column] = isDark; }, size, mask);
  return grid;
}

// How hard a code is to read: long runs, squares, what looks like a corner, and too much of one colour.
function penaltyOf(grid) {
  const lines = [...grid, ...grid.map((_, column) => grid.map(row => row[column]))].map(line => line.join(''));
  const runs = sum(lines.flatMap(line => (line.match(/0{5,}|1{5,}/g) ?? []).map(run => run.length - 2)));
  const corners = sum(lines.map(line => (line.match(/(?=10111010000|00001011101)/g) ?? []).length)) * 40;
  let squares = 0;
  for (let row = 1; row < grid.length; row += 1) {
    for (let column = 1; column < grid.length; column += 1) {
      const four = grid[row][column] + grid[row - 1][column] + grid[row][column - 1] + grid[row - 1][column - 1];
      if (four % 4 === 0) squares += 3;
    }
  }
  const share = sum(grid.flat()) / grid.length ** 2;
  return runs + corners + squares + Math.floor(Math.abs(share - 0.5) * 20) * 10;
}

// The code of a text in rows of 0 and 1, or null where it is too long.
export function codeOf(text) {
  const bytes = new TextEncoder().encode(text);
  const version = BLOCKS.findIndex(([, sizes], place) => sum(sizes) * 8 >= 4 + (place < 9 ? 8 : 16) + bytes.length * 8) + 1;
  if (version === 0) return null;
  const [frame, words] = [frameOf(version), wordsOf(bytes, version)];
  return MASKS.map((_, mask) => filled(frame, words, mask)).reduce((best, grid) => (penaltyOf(grid) < penaltyOf(best) ? grid : best));
}

// The code as a picture, with the quiet border that it needs.
export function qrNode(text, label) {
  const grid = codeOf(text);
  if (grid === null) return null;
  const svg = document.createElementNS(SVG, 'svg');
  const size = grid.length + 8;
  const path = document.createElementNS(SVG, 'path');
  path.setAttribute('d', grid.flatMap((row, down) => row.map((isDark, across) => (isDark ? `M${across + 4} ${down + 4}h1v1h-1z` : ''))).join(''));
  for (const [name, value] of [['viewBox', `0 0 ${size} ${size}`], ['role', 'img'], ['aria-label', label], ['class', 'qr']]) svg.setAttribute(name, value);
  svg.append(path);
  return svg;
}
