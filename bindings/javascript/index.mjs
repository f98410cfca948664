import './src/engine/load.mjs';
export * from './src/index.mjs';
