// Functions that make an observable, or ask one.
import {
  Connectable, FactoryOrValue, InteropObservable, Observable, ObservableInput, ObservableInputTuple, ObservedValueOf, SchedulerLike, Subject,
  SubjectLike, Unsubscribable, UnaryFunction,
} from './core';

export declare const observable: string | symbol;
export declare const EMPTY: Observable<never>;
export declare const NEVER: Observable<never>;
export declare function noop(): void;
export declare function identity<T>(value: T): T;
export declare function isObservable(value: any): value is Observable<unknown>;

export declare function pipe(): <T>(it: T) => T;
export declare function pipe<T, A>(a: UnaryFunction<T, A>): UnaryFunction<T, A>;
export declare function pipe<T, A, B>(a: UnaryFunction<T, A>, b: UnaryFunction<A, B>): UnaryFunction<T, B>;
export declare function pipe<T, A, B, C>(a: UnaryFunction<T, A>, b: UnaryFunction<A, B>, c: UnaryFunction<B, C>): UnaryFunction<T, C>;
export declare function pipe<T, A, B, C, D>(a: UnaryFunction<T, A>, b: UnaryFunction<A, B>, c: UnaryFunction<B, C>, d: UnaryFunction<C, D>): UnaryFunction<T, D>;
export declare function pipe<T, A, B, C, D, E>(a: UnaryFunction<T, A>, b: UnaryFunction<A, B>, c: UnaryFunction<B, C>, d: UnaryFunction<C, D>,
  e: UnaryFunction<D, E>): UnaryFunction<T, E>;
export declare function pipe<T, A, B, C, D, E, F>(a: UnaryFunction<T, A>, b: UnaryFunction<A, B>, c: UnaryFunction<B, C>, d: UnaryFunction<C, D>,
  e: UnaryFunction<D, E>, f: UnaryFunction<E, F>): UnaryFunction<T, F>;
export declare function pipe<T, A, B, C, D, E, F, G>(a: UnaryFunction<T, A>, b: UnaryFunction<A, B>, c: UnaryFunction<B, C>, d: UnaryFunction<C, D>,
  e: UnaryFunction<D, E>, f: UnaryFunction<E, F>, g: UnaryFunction<F, G>): UnaryFunction<T, G>;
export declare function pipe<T, A, B, C, D, E, F, G, H>(a: UnaryFunction<T, A>, b: UnaryFunction<A, B>, c: UnaryFunction<B, C>, d: UnaryFunction<C, D>,
  e: UnaryFunction<D, E>, f: UnaryFunction<E, F>, g: UnaryFunction<F, G>, h: UnaryFunction<G, H>): UnaryFunction<T, H>;
export declare function pipe<T, A, B, C, D, E, F, G, H, I>(a: UnaryFunction<T, A>, b: UnaryFunction<A, B>, c: UnaryFunction<B, C>, d: UnaryFunction<C, D>,
  e: UnaryFunction<D, E>, f: UnaryFunction<E, F>, g: UnaryFunction<F, G>, h: UnaryFunction<G, H>, i: UnaryFunction<H, I>,
  ...more: UnaryFunction<any, any>[]): UnaryFunction<T, unknown>;

interface FirstConfig<T> { defaultValue: T; }
export declare function firstValueFrom<T>(source: Observable<T>): Promise<T>;
export declare function firstValueFrom<T, D>(source: Observable<T>, config: FirstConfig<D>): Promise<T | D>;
export declare function lastValueFrom<T>(source: Observable<T>): Promise<T>;
export declare function lastValueFrom<T, D>(source: Observable<T>, config: FirstConfig<D>): Promise<T | D>;

// Of items

export declare function of(): Observable<never>;
/** @deprecated Use `scheduled`. */
export declare function of<A extends readonly unknown[]>(...itemsAndScheduler: [...A, SchedulerLike]): Observable<A[number]>;
export declare function of<T>(): Observable<T>;
export declare function of<T>(item: T): Observable<T>;
export declare function of<A extends readonly unknown[]>(...items: A): Observable<A[number]>;
export declare function from<O extends ObservableInput<any>>(input: O): Observable<ObservedValueOf<O>>;
/** @deprecated Use `scheduled`. */
export declare function from<O extends ObservableInput<any>>(input: O, scheduler: SchedulerLike | undefined): Observable<ObservedValueOf<O>>;
export declare function scheduled<T>(input: ObservableInput<T>, scheduler: SchedulerLike): Observable<T>;
export declare function range(start: number, count?: number): Observable<number>;
/** @deprecated Use `range(start, count).pipe(observeOn(scheduler))`. */
export declare function range(start: number, count: number | undefined, scheduler: SchedulerLike): Observable<number>;
export interface GenerateBaseOptions<S> {
  initialState: S; condition?: (state: S) => boolean; iterate: (state: S) => S; scheduler?: SchedulerLike;
}
export interface GenerateOptions<T, S> extends GenerateBaseOptions<S> { resultSelector: (state: S) => T; }
export declare function generate<T, S>(initial: S, condition: (state: S) => boolean, iterate: (state: S) => S, result: (state: S) => T,
  scheduler?: SchedulerLike): Observable<T>;
export declare function generate<S>(initial: S, condition: (state: S) => boolean, iterate: (state: S) => S, scheduler?: SchedulerLike): Observable<S>;
export declare function generate<T, S>(options: GenerateOptions<T, S>): Observable<T>;
export declare function generate<S>(options: GenerateBaseOptions<S>): Observable<S>;
/** @deprecated Use `from(Object.entries(object))`. */
export declare function pairs<T>(object: readonly T[] | Record<string, T>, scheduler?: SchedulerLike): Observable<[string, T]>;
/** @deprecated Use `EMPTY`. */
export declare function empty(scheduler?: SchedulerLike): Observable<never>;
/** @deprecated Use `NEVER`. */
export declare function never(): Observable<never>;
export declare function throwError(errorFactory: () => any): Observable<never>;
/** @deprecated Pass a function that makes the error. */
export declare function throwError(error: any): Observable<never>;
/** @deprecated Pass a function that makes the error, and use `scheduled`. */
export declare function throwError(errorOrFactory: any, scheduler: SchedulerLike): Observable<never>;

// Of time

export declare function interval(period?: number, scheduler?: SchedulerLike): Observable<number>;
export declare function timer(due: number | Date, scheduler?: SchedulerLike): Observable<0>;
export declare function timer(due: number | Date, period: number, scheduler?: SchedulerLike): Observable<number>;
/** @deprecated Leave `period` out. */
export declare function timer(due: number | Date, period: undefined, scheduler?: SchedulerLike): Observable<0>;
export declare function animationFrames(timestampProvider?: { now(): number }): Observable<{ timestamp: number; elapsed: number }>;

// Of functions and events

export declare function defer<R extends ObservableInput<any> | void>(factory: () => R): Observable<ObservedValueOf<R>>;
export declare function iif<T, F>(condition: () => boolean, trueResult: ObservableInput<T>, falseResult: ObservableInput<F>): Observable<T | F>;
export declare function using<O extends ObservableInput<any>>(resourceFactory: () => Unsubscribable | void,
  observableFactory: (resource: Unsubscribable | void) => O | void): Observable<ObservedValueOf<O>>;
export interface NodeStyleEventEmitter {
  addListener(name: string | symbol, handler: (...args: any[]) => void): this;
  removeListener(name: string | symbol, handler: (...args: any[]) => void): this;
}
export interface NodeCompatibleEventEmitter {
  addListener(name: string, handler: (...args: any[]) => void): void | {};
  removeListener(name: string, handler: (...args: any[]) => void): void | {};
}
export interface JQueryStyleEventEmitter<C, T> {
  on(name: string, handler: (this: C, event: T, ...args: any[]) => any): void;
  off(name: string, handler: (this: C, event: T, ...args: any[]) => any): void;
}
export interface EventListenerObject<E> { handleEvent(event: E): void; }
export interface HasEventTargetAddRemove<E> {
  addEventListener(type: string, listener: ((event: E) => void) | EventListenerObject<E> | null, options?: boolean | AddEventListenerOptions): void;
  removeEventListener(type: string, listener: ((event: E) => void) | EventListenerObject<E> | null, options?: EventListenerOptions | boolean): void;
}
export interface EventListenerOptions { capture?: boolean; passive?: boolean; once?: boolean; }
export interface AddEventListenerOptions extends EventListenerOptions { once?: boolean; passive?: boolean; }
type OneOrMore<T> = T | ArrayLike<T>;
export declare function fromEvent<T>(target: OneOrMore<HasEventTargetAddRemove<T>>, name: string): Observable<T>;
export declare function fromEvent<T, R>(target: OneOrMore<HasEventTargetAddRemove<T>>, name: string, resultSelector: (event: T) => R): Observable<R>;
export declare function fromEvent<T>(target: OneOrMore<HasEventTargetAddRemove<T>>, name: string, options: EventListenerOptions): Observable<T>;
export declare function fromEvent<T, R>(target: OneOrMore<HasEventTargetAddRemove<T>>, name: string, options: EventListenerOptions,
  resultSelector: (event: T) => R): Observable<R>;
export declare function fromEvent(target: OneOrMore<NodeStyleEventEmitter> | OneOrMore<NodeCompatibleEventEmitter>, name: string): Observable<unknown>;
/** @deprecated Say the type of the items by `as`. */
export declare function fromEvent<T>(target: OneOrMore<NodeStyleEventEmitter> | OneOrMore<NodeCompatibleEventEmitter>, name: string): Observable<T>;
export declare function fromEvent<R>(target: OneOrMore<NodeStyleEventEmitter> | OneOrMore<NodeCompatibleEventEmitter>, name: string,
  resultSelector: (...args: any[]) => R): Observable<R>;
export declare function fromEvent<T>(target: OneOrMore<JQueryStyleEventEmitter<any, T>>, name: string): Observable<T>;
export declare function fromEvent<T, R>(target: OneOrMore<JQueryStyleEventEmitter<any, T>>, name: string, resultSelector: (value: T, ...args: any[]) => R): Observable<R>;
export declare function fromEventPattern<T>(addHandler: (handler: (...event: any[]) => void) => any,
  removeHandler?: (handler: (...event: any[]) => void, signal?: any) => void, resultSelector?: (...args: any[]) => T): Observable<T>;
/** @deprecated Use `map`. */
export declare function bindCallback(callbackFunc: (...args: any[]) => void, resultSelector: (...args: any[]) => any, scheduler?: SchedulerLike): (...args: any[]) => Observable<any>;
export declare function bindCallback<A extends readonly unknown[], R extends readonly unknown[]>(
  callbackFunc: (...args: [...A, (...res: R) => void]) => void, scheduler?: SchedulerLike): (...args: A) => Observable<R extends [] ? void : R extends [any] ? R[0] : R>;
/** @deprecated Use `map`. */
export declare function bindNodeCallback(callbackFunc: (...args: any[]) => void, resultSelector: (...args: any[]) => any, scheduler?: SchedulerLike): (...args: any[]) => Observable<any>;
export declare function bindNodeCallback<A extends readonly unknown[], R extends readonly unknown[]>(
  callbackFunc: (...args: [...A, (err: any, ...res: R) => void]) => void, scheduler?: SchedulerLike): (...args: A) => Observable<R extends [] ? void : R extends [any] ? R[0] : R>;

// Of several observables

type Values<I> = { [K in keyof I]: ObservedValueOf<I[K]> };
type Inputs<T extends readonly unknown[]> = readonly [...ObservableInputTuple<T>];

export declare function combineLatest(sources: []): Observable<never>;
export declare function combineLatest<A extends readonly unknown[]>(sources: Inputs<A>): Observable<A>;
export declare function combineLatest<A extends readonly unknown[], R>(sources: Inputs<A>, resultSelector: (...values: A) => R): Observable<R>;
/** @deprecated Pass a list. */
export declare function combineLatest<A extends readonly unknown[]>(...sources: [...ObservableInputTuple<A>]): Observable<A>;
/** @deprecated Pass a list. */
export declare function combineLatest<A extends readonly unknown[], R>(...sourcesAndSelector: [...ObservableInputTuple<A>, (...values: A) => R]): Observable<R>;
export declare function combineLatest<I extends Record<string, ObservableInput<any>>>(sources: I): Observable<Values<I>>;

export declare function forkJoin(sources: []): Observable<never>;
export declare function forkJoin<A extends readonly unknown[]>(sources: Inputs<A>): Observable<A>;
export declare function forkJoin<A extends readonly unknown[], R>(sources: Inputs<A>, resultSelector: (...values: A) => R): Observable<R>;
/** @deprecated Pass a list. */
export declare function forkJoin<A extends readonly unknown[]>(...sources: [...ObservableInputTuple<A>]): Observable<A>;
/** @deprecated Pass a list. */
export declare function forkJoin<A extends readonly unknown[], R>(...sourcesAndSelector: [...ObservableInputTuple<A>, (...values: A) => R]): Observable<R>;
export declare function forkJoin<I extends Record<string, ObservableInput<any>>>(sources: I): Observable<Values<I>>;

export declare function zip<A extends readonly unknown[]>(sources: Inputs<A>): Observable<A>;
export declare function zip<A extends readonly unknown[], R>(sources: Inputs<A>, resultSelector: (...values: A) => R): Observable<R>;
export declare function zip<A extends readonly unknown[]>(...sources: [...ObservableInputTuple<A>]): Observable<A>;
export declare function zip<A extends readonly unknown[], R>(...sourcesAndSelector: [...ObservableInputTuple<A>, (...values: A) => R]): Observable<R>;

export declare function concat<T extends readonly unknown[]>(...inputs: [...ObservableInputTuple<T>]): Observable<T[number]>;
/** @deprecated Use `scheduled` and `concatAll`. */
export declare function concat<T extends readonly unknown[]>(...inputsAndScheduler: [...ObservableInputTuple<T>, SchedulerLike]): Observable<T[number]>;
export declare function merge<A extends readonly unknown[]>(...sources: [...ObservableInputTuple<A>]): Observable<A[number]>;
export declare function merge<A extends readonly unknown[]>(...sourcesAndConcurrency: [...ObservableInputTuple<A>, number?]): Observable<A[number]>;
/** @deprecated Use `scheduled` and `mergeAll`. */
export declare function merge<A extends readonly unknown[]>(...sourcesAndScheduler: [...ObservableInputTuple<A>, SchedulerLike]): Observable<A[number]>;
/** @deprecated Use `scheduled` and `mergeAll`. */
export declare function merge<A extends readonly unknown[]>(...sourcesAndScheduler: [...ObservableInputTuple<A>, number, SchedulerLike]): Observable<A[number]>;
export declare function race<T extends readonly unknown[]>(inputs: [...ObservableInputTuple<T>]): Observable<T[number]>;
export declare function race<T extends readonly unknown[]>(...inputs: [...ObservableInputTuple<T>]): Observable<T[number]>;
export declare function onErrorResumeNext<A extends readonly unknown[]>(sources: [...ObservableInputTuple<A>]): Observable<A[number]>;
export declare function onErrorResumeNext<A extends readonly unknown[]>(...sources: [...ObservableInputTuple<A>]): Observable<A[number]>;
export declare function partition<T, U extends T>(source: ObservableInput<T>, predicate: (value: T, index: number) => value is U): [Observable<U>, Observable<Exclude<T, U>>];
export declare function partition<T>(source: ObservableInput<T>, predicate: (value: T, index: number) => boolean): [Observable<T>, Observable<T>];
/** @deprecated Use a closure in the place of `thisArg`. */
export declare function partition<T, A>(source: ObservableInput<T>, predicate: (this: A, value: T, index: number) => boolean, thisArg: A): [Observable<T>, Observable<T>];

export interface ConnectableConfig<T> { connector: () => SubjectLike<T>; resetOnDisconnect?: boolean; }
export declare function connectable<T>(source: ObservableInput<T>, config?: ConnectableConfig<T>): Connectable<T>;

// What is open, by the engine's own account: this package's own

/** Nodes, resources and leases that are open; resources that were taken in, wait to be released, and were released; events; effects that wait. */
export interface Counts {
  nodes: number; held: number; waiting: number; leases: number; accepted: number; taken: number; events: number; effects: number;
}
export declare function counts(): Counts;
/** The history of the engine, which the audit of the book reads; null if it has been cut. */
export declare function dump(): Uint8Array | null;
/** Asks for the place in the program where each subscription is made, which costs time. */
export declare function trace(isOn?: boolean): void;
export interface Leak { kind: 'subscription' | 'node'; at: string | null; stack: string | null; }
/** What is open: a program's subscriptions and the package's own nodes, and where each was subscribed to, if that was asked for. */
export declare function leaks(): Leak[];
/** Closes all that is open. */
export declare function close(): void;
