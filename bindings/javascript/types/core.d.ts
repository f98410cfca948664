// The classes, and the types that functions and operators are written in.

declare global {
  interface SymbolConstructor { readonly observable: symbol; }
}

// Observers and what is told to them

export interface Observer<T> { next: (value: T) => void; error: (err: any) => void; complete: () => void; }
export interface NextObserver<T> { closed?: boolean; next: (value: T) => void; error?: (err: any) => void; complete?: () => void; }
export interface ErrorObserver<T> { closed?: boolean; next?: (value: T) => void; error: (err: any) => void; complete?: () => void; }
export interface CompletionObserver<T> { closed?: boolean; next?: (value: T) => void; error?: (err: any) => void; complete: () => void; }
export type PartialObserver<T> = NextObserver<T> | ErrorObserver<T> | CompletionObserver<T>;
export interface NextNotification<T> { kind: 'N'; value: T; }
export interface ErrorNotification { kind: 'E'; error: any; }
export interface CompleteNotification { kind: 'C'; }
export type ObservableNotification<T> = NextNotification<T> | ErrorNotification | CompleteNotification;
export type ValueFromNotification<T> = T extends NextNotification<any> ? (T extends { value: infer V } ? V : undefined) : never;

// Subscriptions

export interface Unsubscribable { unsubscribe(): void; }
export interface SubscriptionLike extends Unsubscribable { unsubscribe(): void; readonly closed: boolean; }
export type TeardownLogic = Subscription | Unsubscribable | (() => void) | void;

export declare class Subscription implements SubscriptionLike {
  static EMPTY: Subscription;
  closed: boolean;
  constructor(initialTeardown?: () => void);
  unsubscribe(): void;
  add(teardown: TeardownLogic): void;
  remove(teardown: Exclude<TeardownLogic, void>): void;
}

export declare class Subscriber<T> extends Subscription implements Observer<T> {
  /** @deprecated Use `new Subscriber(destination)` in classes of your own, and `subscribe` elsewhere. */
  static create<T>(next?: (value?: T) => void, error?: (err?: any) => void, complete?: () => void): Subscriber<T>;
  protected isStopped: boolean;
  protected destination: Subscriber<any> | Observer<any>;
  constructor(destination?: Subscriber<any> | Observer<any>);
  next(value?: T): void;
  error(err?: any): void;
  complete(): void;
  protected _next(value: T): void;
  protected _error(err: any): void;
  protected _complete(): void;
}

// What tells items

export interface Subscribable<T> { subscribe(observer: Partial<Observer<T>>): Unsubscribable; }
export interface InteropObservable<T> { [Symbol.observable]: () => Subscribable<T>; }
export type ObservableLike<T> = InteropObservable<T>;
export interface ReadableStreamLike<T> {
  getReader(): { read(): PromiseLike<{ done: false; value: T } | { done: true; value?: undefined }>; releaseLock(): void };
}
export type ObservableInput<T> =
  Observable<T> | InteropObservable<T> | AsyncIterable<T> | PromiseLike<T> | ArrayLike<T> | Iterable<T> | ReadableStreamLike<T>;
export type SubscribableOrPromise<T> = Subscribable<T> | Subscribable<never> | PromiseLike<T> | InteropObservable<T>;
export interface SubjectLike<T> extends Observer<T>, Subscribable<T> {}
export type ObservedValueOf<O> = O extends ObservableInput<infer T> ? T : never;
export type ObservedValueUnionFromArray<X> = X extends Array<ObservableInput<infer T>> ? T : never;
export type ObservedValuesFromArray<X> = ObservedValueUnionFromArray<X>;
export type ObservedValueTupleFromArray<X> = { [K in keyof X]: ObservedValueOf<X[K]> };
export type ObservableInputTuple<T> = { [K in keyof T]: ObservableInput<T[K]> };

// Functions from observable to observable

export interface UnaryFunction<T, R> { (source: T): R; }
export interface OperatorFunction<T, R> extends UnaryFunction<Observable<T>, Observable<R>> {}
export interface MonoTypeOperatorFunction<T> extends OperatorFunction<T, T> {}
export interface Operator<T, R> { call(subscriber: Subscriber<R>, source: any): TeardownLogic; }

// Small types

export type FactoryOrValue<T> = T | (() => T);
export interface Timestamp<T> { value: T; timestamp: number; }
export interface TimeInterval<T> { value: T; interval: number; }
export type Falsy = null | undefined | false | 0 | -0 | 0n | '';
export type TruthyTypesOf<T> = T extends Falsy ? never : T;
export type Cons<X, Y extends readonly any[]> = [X, ...Y];
export type Head<X extends readonly any[]> = X extends readonly [infer H, ...any[]] ? H : never;
export type Tail<X extends readonly any[]> = X extends readonly [any, ...infer R] ? R : never;
export type ValueFromArray<A extends readonly unknown[]> = A extends Array<infer T> ? T : never;

export declare class Observable<T> implements Subscribable<T> {
  /** @deprecated Use `new Observable`. */
  static create: (...args: any[]) => any;
  /** @deprecated Of the library's own. */
  source: Observable<any> | undefined;
  /** @deprecated Of the library's own. */
  operator: Operator<any, T> | undefined;
  constructor(subscribe?: (this: Observable<T>, subscriber: Subscriber<T>) => TeardownLogic);
  /** @deprecated Of the library's own. */
  lift<R>(operator?: Operator<T, R>): Observable<R>;
  subscribe(observer?: Partial<Observer<T>>): Subscription;
  subscribe(next: (value: T) => void): Subscription;
  /** @deprecated Pass an observer instead of several functions. */
  subscribe(next?: ((value: T) => void) | null, error?: ((error: any) => void) | null, complete?: (() => void) | null): Subscription;
  forEach(next: (value: T) => void): Promise<void>;
  /** @deprecated Leave `promiseCtor` out. */
  forEach(next: (value: T) => void, promiseCtor: PromiseConstructorLike): Promise<void>;
  pipe(): Observable<T>;
  pipe<A>(a: OperatorFunction<T, A>): Observable<A>;
  pipe<A, B>(a: OperatorFunction<T, A>, b: OperatorFunction<A, B>): Observable<B>;
  pipe<A, B, C>(a: OperatorFunction<T, A>, b: OperatorFunction<A, B>, c: OperatorFunction<B, C>): Observable<C>;
  pipe<A, B, C, D>(a: OperatorFunction<T, A>, b: OperatorFunction<A, B>, c: OperatorFunction<B, C>, d: OperatorFunction<C, D>): Observable<D>;
  pipe<A, B, C, D, E>(a: OperatorFunction<T, A>, b: OperatorFunction<A, B>, c: OperatorFunction<B, C>, d: OperatorFunction<C, D>,
    e: OperatorFunction<D, E>): Observable<E>;
  pipe<A, B, C, D, E, F>(a: OperatorFunction<T, A>, b: OperatorFunction<A, B>, c: OperatorFunction<B, C>, d: OperatorFunction<C, D>,
    e: OperatorFunction<D, E>, f: OperatorFunction<E, F>): Observable<F>;
  pipe<A, B, C, D, E, F, G>(a: OperatorFunction<T, A>, b: OperatorFunction<A, B>, c: OperatorFunction<B, C>, d: OperatorFunction<C, D>,
    e: OperatorFunction<D, E>, f: OperatorFunction<E, F>, g: OperatorFunction<F, G>): Observable<G>;
  pipe<A, B, C, D, E, F, G, H>(a: OperatorFunction<T, A>, b: OperatorFunction<A, B>, c: OperatorFunction<B, C>, d: OperatorFunction<C, D>,
    e: OperatorFunction<D, E>, f: OperatorFunction<E, F>, g: OperatorFunction<F, G>, h: OperatorFunction<G, H>): Observable<H>;
  pipe<A, B, C, D, E, F, G, H, I>(a: OperatorFunction<T, A>, b: OperatorFunction<A, B>, c: OperatorFunction<B, C>, d: OperatorFunction<C, D>,
    e: OperatorFunction<D, E>, f: OperatorFunction<E, F>, g: OperatorFunction<F, G>, h: OperatorFunction<G, H>, i: OperatorFunction<H, I>): Observable<I>;
  pipe<A, B, C, D, E, F, G, H, I>(a: OperatorFunction<T, A>, b: OperatorFunction<A, B>, c: OperatorFunction<B, C>, d: OperatorFunction<C, D>,
    e: OperatorFunction<D, E>, f: OperatorFunction<E, F>, g: OperatorFunction<F, G>, h: OperatorFunction<G, H>, i: OperatorFunction<H, I>,
    ...more: OperatorFunction<any, any>[]): Observable<unknown>;
  /** @deprecated Use `firstValueFrom` or `lastValueFrom`. */
  toPromise(): Promise<T | undefined>;
  /** @deprecated Use `firstValueFrom` or `lastValueFrom`. */
  toPromise(promiseCtor: PromiseConstructorLike): Promise<T | undefined>;
}

export interface Connectable<T> extends Observable<T> { connect(): Subscription; }

export declare class ConnectableObservable<T> extends Observable<T> {
  source: Observable<T>;
  protected subjectFactory: () => Subject<T>;
  constructor(source: Observable<T>, subjectFactory: () => Subject<T>);
  connect(): Subscription;
  refCount(): Observable<T>;
}

export interface GroupedObservable<K, T> extends Observable<T> { readonly key: K; }

export declare class Subject<T> extends Observable<T> implements SubscriptionLike {
  /** @deprecated Use `new Subject`. */
  static create: (...args: any[]) => any;
  closed: boolean;
  /** @deprecated Of the library's own. */
  observers: Observer<T>[];
  /** @deprecated Of the library's own. */
  isStopped: boolean;
  /** @deprecated Of the library's own. */
  hasError: boolean;
  /** @deprecated Of the library's own. */
  thrownError: any;
  readonly observed: boolean;
  constructor();
  next(value: T): void;
  error(err: any): void;
  complete(): void;
  unsubscribe(): void;
  asObservable(): Observable<T>;
}
export declare class BehaviorSubject<T> extends Subject<T> {
  constructor(value: T);
  readonly value: T;
  getValue(): T;
}
export declare class ReplaySubject<T> extends Subject<T> {
  constructor(bufferSize?: number, windowTime?: number, timestampProvider?: TimestampProvider);
}
export declare class AsyncSubject<T> extends Subject<T> {}

export declare enum NotificationKind { NEXT = 'N', ERROR = 'E', COMPLETE = 'C' }
/** @deprecated Use the plain objects, `ObservableNotification`. */
export declare class Notification<T> {
  readonly kind: 'N' | 'E' | 'C';
  readonly value?: T;
  readonly error?: any;
  readonly hasValue: boolean;
  constructor(kind: 'N', value?: T);
  constructor(kind: 'E', value: undefined, error: any);
  constructor(kind: 'C');
  observe(observer: PartialObserver<T>): void;
  do(next: (value: T) => void, error?: (err: any) => void, complete?: () => void): void;
  accept(next: (value: T) => void, error?: (err: any) => void, complete?: () => void): void;
  accept(observer: PartialObserver<T>): void;
  toObservable(): Observable<T>;
  static createNext<T>(value: T): Notification<T> & NextNotification<T>;
  static createError(err?: any): Notification<never> & ErrorNotification;
  static createComplete(): Notification<never> & CompleteNotification;
}

// Schedulers

export interface TimestampProvider { now(): number; }
export interface SchedulerAction<T> extends Subscription { schedule(state?: T, delay?: number): Subscription; }
export interface SchedulerLike extends TimestampProvider {
  schedule<T>(work: (this: SchedulerAction<T>, state: T) => void, delay: number, state: T): Subscription;
  schedule<T>(work: (this: SchedulerAction<T>, state?: T) => void, delay?: number, state?: T): Subscription;
}
/** @deprecated Write a `SchedulerLike`. */
export declare class Scheduler implements SchedulerLike {
  static now: () => number;
  now: () => number;
  constructor(schedulerActionCtor: new (scheduler: any, work: any) => SchedulerAction<any>, now?: () => number);
  schedule<T>(work: (this: SchedulerAction<T>, state?: T) => void, delay?: number, state?: T): Subscription;
}
interface AsyncSchedulerLike extends SchedulerLike { flush(action?: any): void; }
export declare const asapScheduler: AsyncSchedulerLike;
export declare const asyncScheduler: AsyncSchedulerLike;
export declare const queueScheduler: AsyncSchedulerLike;
export declare const animationFrameScheduler: AsyncSchedulerLike;
/** @deprecated The same as `asapScheduler`. */
export declare const asap: AsyncSchedulerLike;
/** @deprecated The same as `asyncScheduler`. */
export declare const async: AsyncSchedulerLike;
/** @deprecated The same as `queueScheduler`. */
export declare const queue: AsyncSchedulerLike;
/** @deprecated The same as `animationFrameScheduler`. */
export declare const animationFrame: AsyncSchedulerLike;
export declare class VirtualTimeScheduler implements AsyncSchedulerLike {
  static frameTimeFactor: number;
  frame: number;
  index: number;
  maxFrames: number;
  now: () => number;
  constructor(schedulerActionCtor?: new (scheduler: any, work: any) => SchedulerAction<any>, maxFrames?: number);
  schedule<T>(work: (this: SchedulerAction<T>, state?: T) => void, delay?: number, state?: T): Subscription;
  flush(): void;
}
export declare class VirtualAction<T> extends Subscription implements SchedulerAction<T> {
  constructor(scheduler: VirtualTimeScheduler, work: (this: SchedulerAction<T>, state?: T) => void, index?: number);
  schedule(state?: T, delay?: number): Subscription;
}

// Errors

export declare class ArgumentOutOfRangeError extends Error { constructor(); }
export declare class EmptyError extends Error { constructor(); }
export declare class NotFoundError extends Error { constructor(message: string); }
export declare class ObjectUnsubscribedError extends Error { constructor(); }
export declare class SequenceError extends Error { constructor(message: string); }
export interface TimeoutInfo<T, M = unknown> { readonly meta: M; readonly seen: number; readonly lastValue: T | null; }
export declare class TimeoutError<T = unknown, M = unknown> extends Error {
  info: TimeoutInfo<T, M> | null;
  constructor(info?: TimeoutInfo<T, M>);
}
export declare class UnsubscriptionError extends Error {
  readonly errors: any[];
  constructor(errors: any[]);
}

// Settings for all observables

export interface GlobalConfig {
  onUnhandledError: ((err: any) => void) | null;
  onStoppedNotification: ((notification: ObservableNotification<any>, subscriber: Subscriber<any>) => void) | null;
  /** @deprecated */
  Promise?: PromiseConstructorLike;
  /** @deprecated */
  useDeprecatedSynchronousErrorHandling: boolean;
  /** @deprecated */
  useDeprecatedNextContext: boolean;
}
export declare const config: GlobalConfig;
