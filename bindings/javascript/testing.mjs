import './src/engine/load.mjs';
export * from './src/testing.mjs';
