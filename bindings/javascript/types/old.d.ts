// Operators of rxjs/operators that rxjs has under other names, or as functions.
import { Observable, ObservableInputTuple, OperatorFunction, UnaryFunction } from './core';

/** @deprecated Use `combineLatestWith`. */
export declare function combineLatest<T, A extends readonly unknown[]>(...others: [...ObservableInputTuple<A>]): OperatorFunction<T, [T, ...A]>;
/** @deprecated Use `zipWith`. */
export declare function zip<T, A extends readonly unknown[]>(...others: [...ObservableInputTuple<A>]): OperatorFunction<T, [T, ...A]>;
/** @deprecated Use `concatWith`. */
export declare function concat<T, A extends readonly unknown[]>(...others: [...ObservableInputTuple<A>]): OperatorFunction<T, T | A[number]>;
/** @deprecated Use `mergeWith`. */
export declare function merge<T, A extends readonly unknown[]>(...others: [...ObservableInputTuple<A>]): OperatorFunction<T, T | A[number]>;
/** @deprecated Use the function `onErrorResumeNext`. */
export declare function onErrorResumeNext<T, A extends readonly unknown[]>(...others: [...ObservableInputTuple<A>]): OperatorFunction<T, T | A[number]>;
/** @deprecated Use the function `partition`. */
export declare function partition<T>(predicate: (value: T, index: number) => boolean, thisArg?: any): UnaryFunction<Observable<T>, [Observable<T>, Observable<T>]>;
/** @deprecated Use `raceWith`. */
export declare function race<T, A extends readonly unknown[]>(...others: [...ObservableInputTuple<A>]): OperatorFunction<T, T | A[number]>;
/** @deprecated Use `raceWith`. */
export declare function race<T, A extends readonly unknown[]>(others: [...ObservableInputTuple<A>]): OperatorFunction<T, T | A[number]>;
