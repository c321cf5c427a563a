// what browsers have, and Debian's tsc does not know yet
interface Array<T> {
  findLast(predicate: (value: T, index: number) => unknown): T | undefined;
  findLastIndex(predicate: (value: T, index: number) => unknown): number;
}
interface CanvasPath {
  roundRect(x: number, y: number, width: number, height: number, radius: number): void;
}
