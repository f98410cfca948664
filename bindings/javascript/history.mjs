import './src/engine/load.mjs';
export { History, WrongOrder } from './src/watch/history.mjs';
