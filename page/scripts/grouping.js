// Groups things by their keys. Groups and things keep their order.
export function groupedBy(things, keyOfThing) {
  const groups = new Map();
  for (const thing of things) {
    const key = keyOfThing(thing);
    if (groups.has(key)) groups.get(key).push(thing);
    else groups.set(key, [thing]);
  }
  return groups;
}
