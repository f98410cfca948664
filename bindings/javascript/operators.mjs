import './src/engine/load.mjs';
export * from './src/operators.mjs';
