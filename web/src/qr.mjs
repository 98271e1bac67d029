// QR codes (ISO/IEC 18004). A QR code encodes the bytes of a text as rows of dark and light modules. The codes have error correction level L, which
// is enough for a screen.

// The number of error correction codewords per block, and the number of blocks, for each version up to 25 at level L.
const CORRECTION = [7, 10, 15, 20, 26, 18, 20, 24, 30, 18, 20, 24, 26, 30, 22, 24, 28, 30, 28, 28, 28, 28, 30, 30, 26];
const BLOCKS = [1, 1, 1, 1, 1, 2, 2, 2, 2, 4, 4, 4, 4, 4, 6, 6, 6, 6, 7, 8, 8, 9, 9, 10, 12];
const LARGEST_VERSION = 25;

// Arithmetic in the field of 256 elements, modulo x^8 + x^4 + x^3 + x^2 + 1. The tables have the powers of 2, and the logarithms of the elements.
const POWERS = [];
const LOGARITHMS = [];
for (let exponent = 0, power = 1; exponent < 255; exponent += 1) {
  POWERS[exponent] = power;
  LOGARITHMS[power] = exponent;
  power = power << 1 ^ (power & 0x80 ? 0x11d : 0);
}

function product(a, b) {
  return a === 0 || b === 0 ? 0 : POWERS[(LOGARITHMS[a] + LOGARITHMS[b]) % 255];
}

function alignmentPlaces(version) {
  if (version === 1) return [];
  const count = Math.floor(version / 7) + 2;
  const last = version * 4 + 10;
  const step = Math.ceil((last - 6) / (count * 2 - 2)) * 2;
  return [6, ...Array.from({ length: count - 1 }, (_, place) => last - (count - 2 - place) * step)];
}

// Returns how many modules carry data or error correction in a code of the given version.
function carriers(version) {
  const alignments = alignmentPlaces(version).length;
  const patterns = version === 1 ? 0 : (25 * alignments - 10) * alignments - 55;
  return (16 * version + 128) * version + 64 - patterns - (version >= 7 ? 36 : 0);
}

function codewords(version) {
  return Math.floor(carriers(version) / 8);
}

function dataLength(version) {
  return codewords(version) - CORRECTION[version - 1] * BLOCKS[version - 1];
}

// Returns the smallest version that can contain `count` bytes, or null.
function versionFor(count) {
  for (let version = 1; version <= LARGEST_VERSION; version += 1) {
    if (4 + (version < 10 ? 8 : 16) + 8 * count <= 8 * dataLength(version)) return version;
  }
  return null;
}

function dataOf(bytes, version) {
  const bits = [];
  const add = (value, length) => {
    for (let place = length - 1; place >= 0; place -= 1) bits.push(value >> place & 1);
  };
  add(4, 4);
  add(bytes.length, version < 10 ? 8 : 16);
  for (const byte of bytes) add(byte, 8);
  const room = 8 * dataLength(version);
  add(0, Math.min(4, room - bits.length));
  add(0, -bits.length & 7);
  for (let fill = 0xec; bits.length < room; fill ^= 0xec ^ 0x11) add(fill, 8);
  return Array.from({ length: room / 8 }, (_, place) => parseInt(bits.slice(8 * place, 8 * place + 8).join(""), 2));
}

// Returns the coefficients of the product of (x - 2^i) for each i below the degree, without the leading 1.
function generator(degree) {
  let result = [...new Array(degree - 1).fill(0), 1];
  for (let exponent = 0; exponent < degree; exponent += 1) {
    result = result.map((each, place) => product(each, POWERS[exponent]) ^ (result[place + 1] ?? 0));
  }
  return result;
}

function remainder(data, divisor) {
  const rest = new Array(divisor.length).fill(0);
  for (const byte of data) {
    const factor = byte ^ rest.shift();
    rest.push(0);
    divisor.forEach((each, place) => { rest[place] ^= product(each, factor); });
  }
  return rest;
}

// Splits the data into blocks, calculates each block's error correction, and interleaves the blocks.
function withCorrection(data, version) {
  const count = BLOCKS[version - 1];
  const divisor = generator(CORRECTION[version - 1]);
  const short = Math.floor(data.length / count);
  const longFrom = count - data.length % count;
  const blocks = Array.from({ length: count }, (_, place) => {
    const from = place * short + Math.max(0, place - longFrom);
    return data.slice(from, from + short + (place >= longFrom ? 1 : 0));
  });
  const corrections = blocks.map((block) => remainder(block, divisor));
  const columns = (lists) => Array.from({ length: Math.max(...lists.map((list) => list.length)) }, (_, place) =>
    lists.filter((list) => place < list.length).map((list) => list[place])).flat();
  return [...columns(blocks), ...columns(corrections)];
}

const MASKS = [
  (x, y) => (x + y) % 2, (x, y) => y % 2, (x) => x % 3, (x, y) => (x + y) % 3, (x, y) => (Math.floor(x / 3) + Math.floor(y / 2)) % 2,
  (x, y) => x * y % 2 + x * y % 3, (x, y) => (x * y % 2 + x * y % 3) % 2, (x, y) => ((x + y) % 2 + x * y % 3) % 2,
];

class Code {
  constructor(version) {
    this.version = version;
    this.size = 17 + 4 * version;
    this.rows = Array.from({ length: this.size }, () => new Array(this.size).fill(false));
    this.fixed = Array.from({ length: this.size }, () => new Array(this.size).fill(false));
  }

  fix(x, y, isDark) {
    if (x < 0 || y < 0 || x >= this.size || y >= this.size) return;
    this.rows[y][x] = isDark;
    this.fixed[y][x] = true;
  }

  // Draws a square around a place. The distance of a module from the centre decides whether the module is dark.
  square(x, y, reach, isDark) {
    for (let dy = -reach; dy <= reach; dy += 1) {
      for (let dx = -reach; dx <= reach; dx += 1) this.fix(x + dx, y + dy, isDark(Math.max(Math.abs(dx), Math.abs(dy))));
    }
  }

  drawPatterns() {
    for (let place = 0; place < this.size; place += 1) {
      this.fix(6, place, place % 2 === 0);
      this.fix(place, 6, place % 2 === 0);
    }
    const finder = (distance) => distance !== 2 && distance !== 4;
    for (const [x, y] of [[3, 3], [this.size - 4, 3], [3, this.size - 4]]) this.square(x, y, 4, finder);
    const places = alignmentPlaces(this.version);
    const last = places.length - 1;
    places.forEach((y, row) => places.forEach((x, column) => {
      const isFinder = (row === 0 && (column === 0 || column === last)) || (row === last && column === 0);
      if (!isFinder) this.square(x, y, 2, (distance) => distance !== 1);
    }));
    this.drawFormat(0);
    if (this.version >= 7) this.drawVersion();
  }

  // Writes the format information twice. It consists of level L, the number of the mask, and their error correction.
  drawFormat(mask) {
    const value = 1 << 3 | mask;
    let rest = value;
    for (let step = 0; step < 10; step += 1) rest = rest << 1 ^ (rest >> 9) * 0x537;
    const bits = (value << 10 | rest) ^ 0x5412;
    const bit = (place) => (bits >> place & 1) === 1;
    for (let place = 0; place < 15; place += 1) {
      const along = place < 6 ? place : place < 8 ? place + 1 : this.size - 15 + place;
      this.fix(8, along, bit(place));
      const across = place < 8 ? this.size - 1 - place : place === 8 ? 7 : 14 - place;
      this.fix(across, 8, bit(place));
    }
    this.fix(8, this.size - 8, true);
  }

  drawVersion() {
    let rest = this.version;
    for (let step = 0; step < 12; step += 1) rest = rest << 1 ^ (rest >> 11) * 0x1f25;
    const bits = this.version << 12 | rest;
    for (let place = 0; place < 18; place += 1) {
      const [far, near] = [this.size - 11 + place % 3, Math.floor(place / 3)];
      this.fix(far, near, (bits >> place & 1) === 1);
      this.fix(near, far, (bits >> place & 1) === 1);
    }
  }

  // Fills pairs of columns from the right, alternately upwards and downwards.
  drawData(words) {
    let place = 0;
    for (let right = this.size - 1; right >= 1; right -= 2) {
      if (right === 6) right = 5;
      for (let step = 0; step < this.size; step += 1) {
        const y = (right + 1 & 2) === 0 ? this.size - 1 - step : step;
        for (const x of [right, right - 1]) {
          if (this.fixed[y][x] || place >= words.length * 8) continue;
          this.rows[y][x] = (words[place >> 3] >> 7 - (place & 7) & 1) === 1;
          place += 1;
        }
      }
    }
  }

  masked(mask) {
    const copy = new Code(this.version);
    copy.rows = this.rows.map((row, y) => row.map((isDark, x) => isDark !== (!this.fixed[y][x] && MASKS[mask](x, y) === 0)));
    copy.fixed = this.fixed;
    copy.drawFormat(mask);
    return copy;
  }

  // Returns the penalty of a code. Runs and squares of one colour, patterns like the finder pattern, and too many modules of one colour add to the
  // penalty.
  penalty() {
    const lines = [...this.rows, ...this.rows.map((_, x) => this.rows.map((row) => row[x]))].map((line) => line.map(Number).join(""));
    let points = 0;
    for (const line of lines) {
      for (const [run] of line.matchAll(/0{5,}|1{5,}/g)) points += run.length - 2;
      points += 40 * [...line.matchAll(/(?=10111010000|00001011101)/g)].length;
    }
    for (let y = 1; y < this.size; y += 1) {
      for (let x = 1; x < this.size; x += 1) {
        const isDark = this.rows[y][x];
        if (this.rows[y - 1][x] === isDark && this.rows[y][x - 1] === isDark && this.rows[y - 1][x - 1] === isDark) points += 3;
      }
    }
    const dark = this.rows.flat().filter(Boolean).length / this.size ** 2;
    return points + 10 * Math.floor(Math.abs(dark - 0.5) * 20);
  }
}

// Returns the rows of a text's code. Returns null if the text is so long that a telephone couldn't read the code from a screen.
export function qrRows(text) {
  const bytes = new TextEncoder().encode(text);
  const version = versionFor(bytes.length);
  if (version === null) return null;
  const code = new Code(version);
  code.drawPatterns();
  code.drawData(withCorrection(dataOf(bytes, version), version));
  const masked = MASKS.map((_, mask) => code.masked(mask));
  return masked.reduce((best, other) => other.penalty() < best.penalty() ? other : best).rows;
}
