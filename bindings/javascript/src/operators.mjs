// The names of rxjs/operators: those that are pipeable in both, and older ones.
export * from './piped.mjs';
export { combineLatestOp as combineLatest, concatOp as concat, mergeOp as merge, raceOp as race, zipOp as zip, onErrorResumeNextOp as onErrorResumeNext } from './operators/with-others.mjs';
export { partitionOp as partition } from './operators/partition.mjs';
