// What can't be read. The message says why, as a user can be told.
export class Unreadable extends Error {}
