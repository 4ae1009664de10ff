// The part of a map that is shown: which points of the map are where on the canvas. Positions on the map are in millionths of a degree.

const EARTH = 111_320 / 1_000_000; // metres for a millionth of a degree of latitude
const FOOT = 0.3048;
const MILE = 5280 * FOOT;
const MARGIN = 24;
const LARGEST_SCALE = 2; // pixels for a millionth of a degree

export class View {
  constructor(bounds) {
    Object.assign(this, { bounds, isWhole: true });
    const middle = (bounds[1] + bounds[3]) / 2e6;
    this.squeeze = Math.max(0.05, Math.cos((middle * Math.PI) / 180));
  }

  resize(width, height) {
    Object.assign(this, { width, height });
    if (this.isWhole) this.showWhole();
  }

  showWhole() {
    this.show(this.bounds);
    this.leastScale = Math.min(this.scale / 4, LARGEST_SCALE / 8);
    this.isWhole = true;
  }

  // Shows these bounds: least and greatest longitude and latitude.
  show([west, south, east, north], closest = LARGEST_SCALE) {
    const [across, along] = [Math.max(1, (east - west) * this.squeeze), Math.max(1, north - south)];
    const space = (length) => Math.max(10, length - 2 * MARGIN);
    this.scale = Math.min(space(this.width) / across, space(this.height) / along, closest);
    this.longitude = (west + east) / 2;
    this.latitude = (south + north) / 2;
    this.isWhole = false;
  }

  x(longitude) {
    return this.width / 2 + (longitude - this.longitude) * this.squeeze * this.scale;
  }

  y(latitude) {
    return this.height / 2 - (latitude - this.latitude) * this.scale;
  }

  placeAt(x, y) {
    return [this.longitude + (x - this.width / 2) / (this.squeeze * this.scale), this.latitude - (y - this.height / 2) / this.scale];
  }

  move(x, y) {
    this.longitude -= x / (this.squeeze * this.scale);
    this.latitude += y / this.scale;
    this.isWhole = false;
  }

  zoom(factor, x = this.width / 2, y = this.height / 2) {
    const [longitude, latitude] = this.placeAt(x, y);
    this.scale = Math.min(LARGEST_SCALE, Math.max(this.leastScale ?? 0, this.scale * factor));
    const [nowLongitude, nowLatitude] = this.placeAt(x, y);
    this.longitude += longitude - nowLongitude;
    this.latitude += latitude - nowLatitude;
    this.isWhole = false;
  }

  metresToPixel() {
    return EARTH / this.scale;
  }

  // Round lengths in metres and in feet, and how many pixels each takes.
  rulers(most) {
    const metres = most * this.metresToPixel();
    const pixels = (length) => (length / EARTH) * this.scale;
    const [metric, feet, miles] = [metres, metres / FOOT, metres / MILE].map(roundLength);
    const isInMiles = miles >= 1;
    return [
      { text: metric >= 1000 ? `${metric / 1000} km` : `${metric} m`, pixels: pixels(metric) },
      { text: isInMiles ? `${miles} mi` : `${feet} ft`, pixels: pixels(isInMiles ? miles * MILE : feet * FOOT) },
    ];
  }

  copy() {
    return { longitude: this.longitude, latitude: this.latitude, scale: this.scale };
  }
}

// The greatest of 1, 2, 5, 10, 20 and so on that isn't more than a length.
function roundLength(length) {
  const power = 10 ** Math.floor(Math.log10(length));
  return [5, 2, 1].map((step) => step * power).find((each) => each <= length) ?? power;
}
