// Functions from observable to observable.
import {
  ConnectableObservable, Falsy, GroupedObservable, MonoTypeOperatorFunction, Notification, Observable, ObservableInput, ObservableInputTuple,
  ObservableNotification, ObservedValueOf, Observer, OperatorFunction, SchedulerLike, Subject, SubjectLike, Timestamp, TimeInterval, TimeoutInfo,
  TimestampProvider, TruthyTypesOf, UnaryFunction, ValueFromNotification,
} from './core';

type Input = ObservableInput<any>;
type Mapper<T, R> = (value: T, index: number) => R;
type Test<T> = (value: T, index: number, source: Observable<T>) => boolean;
type Result<T, O extends Input, R> = (outer: T, inner: ObservedValueOf<O>, outerIndex: number, innerIndex: number) => R;

// Items

export declare function map<T, R>(project: (value: T, index: number) => R): OperatorFunction<T, R>;
/** @deprecated Use a closure in the place of `thisArg`. */
export declare function map<T, R, A>(project: (this: A, value: T, index: number) => R, thisArg: A): OperatorFunction<T, R>;
/** @deprecated Use `map(() => value)`. */
export declare function mapTo<R>(value: R): OperatorFunction<unknown, R>;
/** @deprecated Use `map` and `?.`. */
export declare function pluck<T, A extends keyof T>(a: A): OperatorFunction<T, T[A]>;
/** @deprecated Use `map` and `?.`. */
export declare function pluck<T, A extends keyof T, B extends keyof T[A]>(a: A, b: B): OperatorFunction<T, T[A][B]>;
/** @deprecated Use `map` and `?.`. */
export declare function pluck<T, A extends keyof T, B extends keyof T[A], C extends keyof T[A][B]>(a: A, b: B, c: C): OperatorFunction<T, T[A][B][C]>;
/** @deprecated Use `map` and `?.`. */
export declare function pluck<T>(...names: Array<string | number | symbol>): OperatorFunction<T, unknown>;
export declare function filter<T, S extends T>(predicate: (value: T, index: number) => value is S): OperatorFunction<T, S>;
export declare function filter<T>(predicate: BooleanConstructor): OperatorFunction<T, TruthyTypesOf<T>>;
export declare function filter<T>(predicate: (value: T, index: number) => boolean): MonoTypeOperatorFunction<T>;
/** @deprecated Use a closure in the place of `thisArg`. */
export declare function filter<T, A>(predicate: (this: A, value: T, index: number) => boolean, thisArg: A): MonoTypeOperatorFunction<T>;
export declare function ignoreElements(): OperatorFunction<unknown, never>;
export declare function skip<T>(count: number): MonoTypeOperatorFunction<T>;
export declare function skipLast<T>(count: number): MonoTypeOperatorFunction<T>;
export declare function skipUntil<T>(notifier: Input): MonoTypeOperatorFunction<T>;
export declare function skipWhile<T>(predicate: BooleanConstructor): OperatorFunction<T, Extract<T, Falsy> extends never ? never : T>;
export declare function skipWhile<T>(predicate: (value: T, index: number) => boolean): MonoTypeOperatorFunction<T>;
export declare function take<T>(count: number): MonoTypeOperatorFunction<T>;
export declare function takeLast<T>(count: number): MonoTypeOperatorFunction<T>;
export declare function takeUntil<T>(notifier: Input): MonoTypeOperatorFunction<T>;
export declare function takeWhile<T>(predicate: BooleanConstructor, inclusive: true): MonoTypeOperatorFunction<T>;
export declare function takeWhile<T>(predicate: BooleanConstructor, inclusive: false): OperatorFunction<T, TruthyTypesOf<T>>;
export declare function takeWhile<T>(predicate: BooleanConstructor): OperatorFunction<T, TruthyTypesOf<T>>;
export declare function takeWhile<T, S extends T>(predicate: (value: T, index: number) => value is S): OperatorFunction<T, S>;
export declare function takeWhile<T, S extends T>(predicate: (value: T, index: number) => value is S, inclusive: false): OperatorFunction<T, S>;
export declare function takeWhile<T>(predicate: (value: T, index: number) => boolean, inclusive?: boolean): MonoTypeOperatorFunction<T>;
export declare function distinct<T, K>(keySelector?: (value: T) => K, flushes?: Input): MonoTypeOperatorFunction<T>;
export declare function distinctUntilChanged<T>(comparator?: (previous: T, current: T) => boolean): MonoTypeOperatorFunction<T>;
export declare function distinctUntilChanged<T, K>(comparator: (previous: K, current: K) => boolean, keySelector: (value: T) => K): MonoTypeOperatorFunction<T>;
export declare function distinctUntilKeyChanged<T>(key: keyof T): MonoTypeOperatorFunction<T>;
export declare function distinctUntilKeyChanged<T, K extends keyof T>(key: K, compare: (x: T[K], y: T[K]) => boolean): MonoTypeOperatorFunction<T>;
export declare function pairwise<T>(): OperatorFunction<T, [T, T]>;
export declare function scan<V, A = V>(accumulator: (acc: A | V, value: V, index: number) => A): OperatorFunction<V, V | A>;
export declare function scan<V, A>(accumulator: (acc: A, value: V, index: number) => A, seed: A): OperatorFunction<V, A>;
export declare function scan<V, A, S>(accumulator: (acc: A | S, value: V, index: number) => A, seed: S): OperatorFunction<V, A>;
export declare function mergeScan<T, R>(accumulator: (acc: R, value: T, index: number) => ObservableInput<R>, seed: R, concurrent?: number): OperatorFunction<T, R>;
export declare function switchScan<T, R, O extends Input>(accumulator: (acc: R, value: T, index: number) => O, seed: R): OperatorFunction<T, ObservedValueOf<O>>;
export declare function startWith<T>(value: null): OperatorFunction<T, T | null>;
export declare function startWith<T>(value: undefined): OperatorFunction<T, T | undefined>;
/** @deprecated Use `scheduled` and `concatAll`. */
export declare function startWith<T, A extends readonly unknown[] = T[]>(...valuesAndScheduler: [...A, SchedulerLike]): OperatorFunction<T, T | A[number]>;
export declare function startWith<T, A extends readonly unknown[] = T[]>(...values: A): OperatorFunction<T, T | A[number]>;
/** @deprecated Use `scheduled` and `concatAll`. */
export declare function endWith<T, A extends readonly unknown[] = T[]>(...valuesAndScheduler: [...A, SchedulerLike]): OperatorFunction<T, T | A[number]>;
export declare function endWith<T, A extends readonly unknown[] = T[]>(...values: A): OperatorFunction<T, T | A[number]>;
export interface TapObserver<T> extends Observer<T> { subscribe: () => void; unsubscribe: () => void; finalize: () => void; }
export declare function tap<T>(observer?: Partial<TapObserver<T>>): MonoTypeOperatorFunction<T>;
export declare function tap<T>(next: (value: T) => void): MonoTypeOperatorFunction<T>;
/** @deprecated Pass an observer instead of several functions. */
export declare function tap<T>(next?: ((value: T) => void) | null, error?: ((error: any) => void) | null, complete?: (() => void) | null): MonoTypeOperatorFunction<T>;
export declare function finalize<T>(callback: () => void): MonoTypeOperatorFunction<T>;
export declare function materialize<T>(): OperatorFunction<T, Notification<T> & ObservableNotification<T>>;
export declare function dematerialize<N extends ObservableNotification<any>>(): OperatorFunction<N, ValueFromNotification<N>>;

// One answer

export declare function reduce<V, A = V>(accumulator: (acc: A | V, value: V, index: number) => A): OperatorFunction<V, V | A>;
export declare function reduce<V, A>(accumulator: (acc: A, value: V, index: number) => A, seed: A): OperatorFunction<V, A>;
export declare function reduce<V, A, S>(accumulator: (acc: A | S, value: V, index: number) => A, seed: S): OperatorFunction<V, A>;
export declare function count<T>(predicate?: Mapper<T, boolean>): OperatorFunction<T, number>;
export declare function max<T>(compare?: (x: T, y: T) => number): MonoTypeOperatorFunction<T>;
export declare function min<T>(compare?: (x: T, y: T) => number): MonoTypeOperatorFunction<T>;
export declare function toArray<T>(): OperatorFunction<T, T[]>;
export declare function every<T>(predicate: BooleanConstructor): OperatorFunction<T, Exclude<T, Falsy> extends never ? false : boolean>;
export declare function every<T>(predicate: Test<T>): OperatorFunction<T, boolean>;
/** @deprecated Use a closure in the place of `thisArg`. */
export declare function every<T, A>(predicate: (this: A, value: T, index: number, source: Observable<T>) => boolean, thisArg: A): OperatorFunction<T, boolean>;
export declare function find<T>(predicate: BooleanConstructor): OperatorFunction<T, TruthyTypesOf<T> | undefined>;
export declare function find<T, S extends T>(predicate: (value: T, index: number, source: Observable<T>) => value is S): OperatorFunction<T, S | undefined>;
export declare function find<T>(predicate: Test<T>): OperatorFunction<T, T | undefined>;
/** @deprecated Use a closure in the place of `thisArg`. */
export declare function find<T, A>(predicate: (this: A, value: T, index: number, source: Observable<T>) => boolean, thisArg: A): OperatorFunction<T, T | undefined>;
export declare function findIndex<T>(predicate: BooleanConstructor): OperatorFunction<T, T extends Falsy ? -1 : number>;
export declare function findIndex<T>(predicate: Test<T>): OperatorFunction<T, number>;
/** @deprecated Use a closure in the place of `thisArg`. */
export declare function findIndex<T, A>(predicate: (this: A, value: T, index: number, source: Observable<T>) => boolean, thisArg: A): OperatorFunction<T, number>;
export declare function first<T, D = T>(predicate?: null, defaultValue?: D): OperatorFunction<T, T | D>;
export declare function first<T>(predicate: BooleanConstructor): OperatorFunction<T, TruthyTypesOf<T>>;
export declare function first<T, D>(predicate: BooleanConstructor, defaultValue: D): OperatorFunction<T, TruthyTypesOf<T> | D>;
export declare function first<T, S extends T>(predicate: (value: T, index: number, source: Observable<T>) => value is S, defaultValue?: S): OperatorFunction<T, S>;
export declare function first<T, S extends T, D>(predicate: (value: T, index: number, source: Observable<T>) => value is S, defaultValue: D): OperatorFunction<T, S | D>;
export declare function first<T, D = T>(predicate: Test<T>, defaultValue?: D): OperatorFunction<T, T | D>;
export declare function last<T>(predicate: BooleanConstructor): OperatorFunction<T, TruthyTypesOf<T>>;
export declare function last<T, D>(predicate: BooleanConstructor, defaultValue: D): OperatorFunction<T, TruthyTypesOf<T> | D>;
export declare function last<T, D = T>(predicate?: null, defaultValue?: D): OperatorFunction<T, T | D>;
export declare function last<T, S extends T>(predicate: (value: T, index: number, source: Observable<T>) => value is S, defaultValue?: S): OperatorFunction<T, S>;
export declare function last<T, D = T>(predicate: Test<T>, defaultValue?: D): OperatorFunction<T, T | D>;
export declare function single<T>(predicate: BooleanConstructor): OperatorFunction<T, TruthyTypesOf<T>>;
export declare function single<T>(predicate?: Test<T>): MonoTypeOperatorFunction<T>;
export declare function elementAt<T, D = T>(index: number, defaultValue?: D): OperatorFunction<T, T | D>;
export declare function isEmpty<T>(): OperatorFunction<T, boolean>;
export declare function defaultIfEmpty<T, R>(defaultValue: R): OperatorFunction<T, T | R>;
export declare function throwIfEmpty<T>(errorFactory?: () => any): MonoTypeOperatorFunction<T>;
export declare function sequenceEqual<T>(compareTo: ObservableInput<T>, comparator?: (a: T, b: T) => boolean): OperatorFunction<T, boolean>;

// An observable for each item

export declare function mergeMap<T, O extends Input>(project: Mapper<T, O>, concurrent?: number): OperatorFunction<T, ObservedValueOf<O>>;
/** @deprecated Use `map` within, in the place of `resultSelector`. */
export declare function mergeMap<T, O extends Input>(project: Mapper<T, O>, resultSelector: undefined, concurrent?: number): OperatorFunction<T, ObservedValueOf<O>>;
/** @deprecated Use `map` within, in the place of `resultSelector`. */
export declare function mergeMap<T, R, O extends Input>(project: Mapper<T, O>, resultSelector: Result<T, O, R>, concurrent?: number): OperatorFunction<T, R>;
/** @deprecated Use `mergeMap`. */
export declare const flatMap: typeof mergeMap;
/** @deprecated Use `mergeMap(() => inner)`. */
export declare function mergeMapTo<O extends Input>(inner: O, concurrent?: number): OperatorFunction<unknown, ObservedValueOf<O>>;
/** @deprecated Use `mergeMap(() => inner)`. */
export declare function mergeMapTo<T, R, O extends Input>(inner: O, resultSelector: Result<T, O, R>, concurrent?: number): OperatorFunction<T, R>;
export declare function concatMap<T, O extends Input>(project: Mapper<T, O>): OperatorFunction<T, ObservedValueOf<O>>;
/** @deprecated Use `map` within, in the place of `resultSelector`. */
export declare function concatMap<T, O extends Input>(project: Mapper<T, O>, resultSelector: undefined): OperatorFunction<T, ObservedValueOf<O>>;
/** @deprecated Use `map` within, in the place of `resultSelector`. */
export declare function concatMap<T, R, O extends Input>(project: Mapper<T, O>, resultSelector: Result<T, O, R>): OperatorFunction<T, R>;
/** @deprecated Use `concatMap(() => inner)`. */
export declare function concatMapTo<O extends Input>(inner: O): OperatorFunction<unknown, ObservedValueOf<O>>;
/** @deprecated Use `concatMap(() => inner)`. */
export declare function concatMapTo<T, R, O extends Input>(inner: O, resultSelector: Result<T, O, R>): OperatorFunction<T, R>;
export declare function switchMap<T, O extends Input>(project: Mapper<T, O>): OperatorFunction<T, ObservedValueOf<O>>;
/** @deprecated Use `map` within, in the place of `resultSelector`. */
export declare function switchMap<T, O extends Input>(project: Mapper<T, O>, resultSelector: undefined): OperatorFunction<T, ObservedValueOf<O>>;
/** @deprecated Use `map` within, in the place of `resultSelector`. */
export declare function switchMap<T, R, O extends Input>(project: Mapper<T, O>, resultSelector: Result<T, O, R>): OperatorFunction<T, R>;
/** @deprecated Use `switchMap(() => inner)`. */
export declare function switchMapTo<O extends Input>(inner: O): OperatorFunction<unknown, ObservedValueOf<O>>;
/** @deprecated Use `switchMap(() => inner)`. */
export declare function switchMapTo<T, R, O extends Input>(inner: O, resultSelector: Result<T, O, R>): OperatorFunction<T, R>;
export declare function exhaustMap<T, O extends Input>(project: Mapper<T, O>): OperatorFunction<T, ObservedValueOf<O>>;
/** @deprecated Use `map` within, in the place of `resultSelector`. */
export declare function exhaustMap<T, R, O extends Input>(project: Mapper<T, O>, resultSelector: Result<T, O, R>): OperatorFunction<T, R>;
export declare function mergeAll<O extends Input>(concurrent?: number): OperatorFunction<O, ObservedValueOf<O>>;
export declare function concatAll<O extends Input>(): OperatorFunction<O, ObservedValueOf<O>>;
export declare function switchAll<O extends Input>(): OperatorFunction<O, ObservedValueOf<O>>;
export declare function exhaustAll<O extends Input>(): OperatorFunction<O, ObservedValueOf<O>>;
/** @deprecated Use `exhaustAll`. */
export declare const exhaust: typeof exhaustAll;
export declare function expand<T, O extends Input>(project: Mapper<T, O>, concurrent?: number, scheduler?: SchedulerLike): OperatorFunction<T, ObservedValueOf<O>>;

// Other observables besides

export declare function combineLatestWith<T, A extends readonly unknown[]>(...others: [...ObservableInputTuple<A>]): OperatorFunction<T, [T, ...A]>;
export declare function combineLatestAll<T>(): OperatorFunction<ObservableInput<T>, T[]>;
export declare function combineLatestAll<R>(project: (...values: any[]) => R): OperatorFunction<any, R>;
/** @deprecated Use `combineLatestAll`. */
export declare const combineAll: typeof combineLatestAll;
export declare function zipWith<T, A extends readonly unknown[]>(...others: [...ObservableInputTuple<A>]): OperatorFunction<T, [T, ...A]>;
export declare function zipAll<T>(): OperatorFunction<ObservableInput<T>, T[]>;
export declare function zipAll<R>(project: (...values: any[]) => R): OperatorFunction<any, R>;
export declare function concatWith<T, A extends readonly unknown[]>(...others: [...ObservableInputTuple<A>]): OperatorFunction<T, T | A[number]>;
export declare function mergeWith<T, A extends readonly unknown[]>(...others: [...ObservableInputTuple<A>]): OperatorFunction<T, T | A[number]>;
export declare function raceWith<T, A extends readonly unknown[]>(...others: [...ObservableInputTuple<A>]): OperatorFunction<T, T | A[number]>;
export declare function withLatestFrom<T, O extends readonly unknown[]>(...inputs: [...ObservableInputTuple<O>]): OperatorFunction<T, [T, ...O]>;
export declare function withLatestFrom<T, O extends readonly unknown[], R>(...inputsAndProject: [...ObservableInputTuple<O>, (...values: [T, ...O]) => R]): OperatorFunction<T, R>;

// Again, and in place of an error

export declare function catchError<T, O extends Input>(selector: (err: any, caught: Observable<T>) => O): OperatorFunction<T, T | ObservedValueOf<O>>;
export interface RetryConfig { count?: number; delay?: number | ((error: any, retryCount: number) => Input); resetOnSuccess?: boolean; }
export declare function retry<T>(count?: number): MonoTypeOperatorFunction<T>;
export declare function retry<T>(config: RetryConfig): MonoTypeOperatorFunction<T>;
/** @deprecated Use `retry({ delay })`. */
export declare function retryWhen<T>(notifier: (errors: Observable<any>) => Input): MonoTypeOperatorFunction<T>;
export interface RepeatConfig { count?: number; delay?: number | ((count: number) => Input); }
export declare function repeat<T>(countOrConfig?: number | RepeatConfig): MonoTypeOperatorFunction<T>;
/** @deprecated Use `repeat({ delay })`. */
export declare function repeatWhen<T>(notifier: (ends: Observable<void>) => Input): MonoTypeOperatorFunction<T>;

// Time

export declare function audit<T>(durationSelector: (value: T) => Input): MonoTypeOperatorFunction<T>;
export declare function auditTime<T>(duration: number, scheduler?: SchedulerLike): MonoTypeOperatorFunction<T>;
export declare function debounce<T>(durationSelector: (value: T) => Input): MonoTypeOperatorFunction<T>;
export declare function debounceTime<T>(dueTime: number, scheduler?: SchedulerLike): MonoTypeOperatorFunction<T>;
export interface ThrottleConfig { leading?: boolean; trailing?: boolean; }
export declare function throttle<T>(durationSelector: (value: T) => Input, config?: ThrottleConfig): MonoTypeOperatorFunction<T>;
export declare function throttleTime<T>(duration: number, scheduler?: SchedulerLike, config?: ThrottleConfig): MonoTypeOperatorFunction<T>;
export declare function sample<T>(notifier: Input): MonoTypeOperatorFunction<T>;
export declare function sampleTime<T>(period: number, scheduler?: SchedulerLike): MonoTypeOperatorFunction<T>;
export declare function delay<T>(due: number | Date, scheduler?: SchedulerLike): MonoTypeOperatorFunction<T>;
export declare function delayWhen<T>(delayDurationSelector: Mapper<T, Input>): MonoTypeOperatorFunction<T>;
/** @deprecated Delay the subscription by `timer` and `concat`. */
export declare function delayWhen<T>(delayDurationSelector: Mapper<T, Input>, subscriptionDelay: Observable<any>): MonoTypeOperatorFunction<T>;
export interface TimeoutConfig<T, O extends Input = ObservableInput<T>, M = unknown> {
  each?: number; first?: number | Date; scheduler?: SchedulerLike; with?: (info: TimeoutInfo<T, M>) => O; meta?: M;
}
export declare function timeout<T, O extends Input, M = unknown>(config: TimeoutConfig<T, O, M> & { with: (info: TimeoutInfo<T, M>) => O }): OperatorFunction<T, T | ObservedValueOf<O>>;
export declare function timeout<T, M = unknown>(config: Omit<TimeoutConfig<T, any, M>, 'with'>): OperatorFunction<T, T>;
export declare function timeout<T>(first: Date, scheduler?: SchedulerLike): MonoTypeOperatorFunction<T>;
export declare function timeout<T>(each: number, scheduler?: SchedulerLike): MonoTypeOperatorFunction<T>;
/** @deprecated Use `timeout({ with })`. */
export declare function timeoutWith<T, R>(due: number | Date, other: ObservableInput<R>, scheduler?: SchedulerLike): OperatorFunction<T, T | R>;
export declare function timestamp<T>(timestampProvider?: TimestampProvider): OperatorFunction<T, Timestamp<T>>;
export declare function timeInterval<T>(scheduler?: SchedulerLike): OperatorFunction<T, TimeInterval<T>>;
export declare function observeOn<T>(scheduler: SchedulerLike, delay?: number): MonoTypeOperatorFunction<T>;
export declare function subscribeOn<T>(scheduler: SchedulerLike, delay?: number): MonoTypeOperatorFunction<T>;

// Lists and windows

export declare function buffer<T>(closingNotifier: Input): OperatorFunction<T, T[]>;
export declare function bufferCount<T>(bufferSize: number, startBufferEvery?: number | null): OperatorFunction<T, T[]>;
export declare function bufferTime<T>(span: number, scheduler?: SchedulerLike): OperatorFunction<T, T[]>;
export declare function bufferTime<T>(span: number, creationInterval: number | null | undefined, scheduler?: SchedulerLike): OperatorFunction<T, T[]>;
export declare function bufferTime<T>(span: number, creationInterval: number | null | undefined, maxSize: number, scheduler?: SchedulerLike): OperatorFunction<T, T[]>;
export declare function bufferToggle<T, O>(openings: ObservableInput<O>, closingSelector: (value: O) => Input): OperatorFunction<T, T[]>;
export declare function bufferWhen<T>(closingSelector: () => Input): OperatorFunction<T, T[]>;
export declare function window<T>(boundaries: Input): OperatorFunction<T, Observable<T>>;
export declare function windowCount<T>(windowSize: number, startWindowEvery?: number): OperatorFunction<T, Observable<T>>;
export declare function windowTime<T>(span: number, scheduler?: SchedulerLike): OperatorFunction<T, Observable<T>>;
export declare function windowTime<T>(span: number, creationInterval: number, scheduler?: SchedulerLike): OperatorFunction<T, Observable<T>>;
export declare function windowTime<T>(span: number, creationInterval: number | null | void, maxSize: number, scheduler?: SchedulerLike): OperatorFunction<T, Observable<T>>;
export declare function windowToggle<T, O>(openings: ObservableInput<O>, closingSelector: (value: O) => Input): OperatorFunction<T, Observable<T>>;
export declare function windowWhen<T>(closingSelector: () => Input): OperatorFunction<T, Observable<T>>;
export interface BasicGroupByOptions<K, T> { element?: undefined; duration?: (group: GroupedObservable<K, T>) => Input; connector?: () => SubjectLike<T>; }
export interface GroupByOptionsWithElement<K, E, T> { element: (value: T) => E; duration?: (group: GroupedObservable<K, E>) => Input; connector?: () => SubjectLike<E>; }
export declare function groupBy<T, K>(key: (value: T) => K, options: BasicGroupByOptions<K, T>): OperatorFunction<T, GroupedObservable<K, T>>;
export declare function groupBy<T, K, E>(key: (value: T) => K, options: GroupByOptionsWithElement<K, E, T>): OperatorFunction<T, GroupedObservable<K, E>>;
export declare function groupBy<T, K extends T>(key: (value: T) => value is K): OperatorFunction<T, GroupedObservable<true, K> | GroupedObservable<false, Exclude<T, K>>>;
export declare function groupBy<T, K>(key: (value: T) => K): OperatorFunction<T, GroupedObservable<K, T>>;
/** @deprecated Pass options. */
export declare function groupBy<T, K, E>(key: (value: T) => K, element?: (value: T) => E, duration?: (group: GroupedObservable<K, E>) => Input,
  connector?: () => Subject<E>): OperatorFunction<T, GroupedObservable<K, E>>;

// One subscription for many

export interface ShareConfig<T> {
  connector?: () => SubjectLike<T>; resetOnError?: boolean | ((error: any) => Input); resetOnComplete?: boolean | (() => Input);
  resetOnRefCountZero?: boolean | (() => Input);
}
export declare function share<T>(options?: ShareConfig<T>): MonoTypeOperatorFunction<T>;
export interface ShareReplayConfig { bufferSize?: number; windowTime?: number; refCount: boolean; scheduler?: SchedulerLike; }
export declare function shareReplay<T>(config: ShareReplayConfig): MonoTypeOperatorFunction<T>;
export declare function shareReplay<T>(bufferSize?: number, windowTime?: number, scheduler?: SchedulerLike): MonoTypeOperatorFunction<T>;
export interface ConnectConfig<T> { connector: () => SubjectLike<T>; }
export declare function connect<T, O extends Input>(selector: (shared: Observable<T>) => O, config?: ConnectConfig<T>): OperatorFunction<T, ObservedValueOf<O>>;
/** @deprecated Use `share`. */
export declare function refCount<T>(): MonoTypeOperatorFunction<T>;
/** @deprecated Use `connectable`, `connect` or `share`. */
export declare function multicast<T>(subject: Subject<T>): UnaryFunction<Observable<T>, ConnectableObservable<T>>;
/** @deprecated Use `connectable`, `connect` or `share`. */
export declare function multicast<T, O extends Input>(subject: Subject<T>, selector: (shared: Observable<T>) => O): OperatorFunction<T, ObservedValueOf<O>>;
/** @deprecated Use `connectable`, `connect` or `share`. */
export declare function multicast<T>(subjectFactory: () => Subject<T>): UnaryFunction<Observable<T>, ConnectableObservable<T>>;
/** @deprecated Use `connectable`, `connect` or `share`. */
export declare function multicast<T, O extends Input>(subjectFactory: () => Subject<T>, selector: (shared: Observable<T>) => O): OperatorFunction<T, ObservedValueOf<O>>;
/** @deprecated Use `connectable`, `connect` or `share`. */
export declare function publish<T>(): UnaryFunction<Observable<T>, ConnectableObservable<T>>;
/** @deprecated Use `connectable`, `connect` or `share`. */
export declare function publish<T, O extends Input>(selector: (shared: Observable<T>) => O): OperatorFunction<T, ObservedValueOf<O>>;
/** @deprecated Use `connectable`, `connect` or `share`. */
export declare function publishBehavior<T>(value: T): UnaryFunction<Observable<T>, ConnectableObservable<T>>;
/** @deprecated Use `connectable`, `connect` or `share`. */
export declare function publishLast<T>(): UnaryFunction<Observable<T>, ConnectableObservable<T>>;
/** @deprecated Use `connectable`, `connect` or `share`. */
export declare function publishReplay<T>(bufferSize?: number, windowTime?: number, timestampProvider?: TimestampProvider): MonoTypeOperatorFunction<T>;
/** @deprecated Use `connectable`, `connect` or `share`. */
export declare function publishReplay<T, O extends Input>(bufferSize: number | undefined, windowTime: number | undefined, selector: (shared: Observable<T>) => O,
  timestampProvider?: TimestampProvider): OperatorFunction<T, ObservedValueOf<O>>;
