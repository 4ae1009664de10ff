// Numbers as they are shown: in groups of three digits.
const grouping = new Intl.NumberFormat("en-US");

export const counted = (number) => grouping.format(number);
