// Points as records spell them: 10 columns of longitude and 9 of latitude, in millionths of a degree. A chain's points are one string.

export const POINT_WIDTH = 19;
export const NO_POINT = " ".repeat(POINT_WIDTH);

export function eachPoint(points) {
  const found = [];
  for (let at = 0; at < points.length; at += POINT_WIDTH) found.push(points.slice(at, at + POINT_WIDTH));
  return found;
}

export const position = (point) => [Number(point.slice(0, 10)), Number(point.slice(10))];

export const reversedPoints = (points) => eachPoint(points).reverse().join("");

// A coordinate in millionths of a degree as a number of degrees with six places, as GeoJSON has it.
export function decimal(coordinate) {
  return `${coordinate[0] === "-" ? "-" : ""}${Number(coordinate.slice(1, -6))}.${coordinate.slice(-6)}`;
}

// A point as maps print it.
export function degrees(point) {
  const [longitude, latitude] = [decimal(point.slice(0, 10)), decimal(point.slice(10, POINT_WIDTH))];
  const unsigned = (text) => text.replace("-", "");
  return `${unsigned(latitude)}° ${latitude[0] === "-" ? "S" : "N"}, ${unsigned(longitude)}° ${longitude[0] === "-" ? "W" : "E"}`;
}
