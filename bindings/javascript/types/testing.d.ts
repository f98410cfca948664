// Tests in virtual time, by diagrams of marbles.
import { Observable, Subject, VirtualTimeScheduler } from './core';

export interface SubscriptionLog { subscribedFrame: number; unsubscribedFrame: number; }
export interface ColdObservable<T> extends Observable<T> { subscriptions: SubscriptionLog[]; messages: TestMessage[]; }
export interface HotObservable<T> extends Subject<T> { subscriptions: SubscriptionLog[]; messages: TestMessage[]; }
export interface TestMessage { frame: number; notification: { kind: 'N' | 'E' | 'C'; value?: any; error?: any }; isGhost?: boolean; }
export interface Expectation<T> { toBe(marbles: string, values?: any, errorValue?: any): void; toEqual(other: Observable<T>): void; }
export interface RunHelpers {
  cold<T = string>(marbles: string, values?: { [marble: string]: T }, error?: any): ColdObservable<T>;
  hot<T = string>(marbles: string, values?: { [marble: string]: T }, error?: any): HotObservable<T>;
  flush(): void;
  time(marbles: string): number;
  expectObservable<T>(observable: Observable<T>, subscriptionMarbles?: string | null): Expectation<T>;
  expectSubscriptions(actual: SubscriptionLog[]): { toBe(marbles: string | string[]): void };
  animate(marbles: string): void;
}
export declare class TestScheduler extends VirtualTimeScheduler {
  static frameTimeFactor: number;
  assertDeepEqual: (actual: any, expected: any) => boolean | void;
  readonly hotObservables: HotObservable<any>[];
  readonly coldObservables: ColdObservable<any>[];
  constructor(assertDeepEqual: (actual: any, expected: any) => boolean | void);
  createTime(marbles: string): number;
  createColdObservable<T = string>(marbles: string, values?: { [marble: string]: T }, error?: any): ColdObservable<T>;
  createHotObservable<T = string>(marbles: string, values?: { [marble: string]: T }, error?: any): HotObservable<T>;
  expectObservable<T>(observable: Observable<T>, subscriptionMarbles?: string | null): Expectation<T>;
  expectSubscriptions(actual: SubscriptionLog[]): { toBe(marbles: string | string[]): void };
  static parseMarblesAsSubscriptions(marbles: string | null, runMode?: boolean): SubscriptionLog;
  static parseMarbles(marbles: string, values?: any, errorValue?: any, materializeInnerObservables?: boolean, runMode?: boolean): TestMessage[];
  run<T>(callback: (helpers: RunHelpers) => T): T;
}
