export { TestScheduler } from './testing/test-scheduler.mjs';
