import { filter } from './items.mjs';

export const partitionOp = (predicate, thisArg) => (source) =>
  [filter(predicate, thisArg)(source), filter((value, i) => !predicate.call(thisArg, value, i))(source)];
