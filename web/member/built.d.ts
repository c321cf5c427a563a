// what the build writes as built.js
export const BUILT: { sources: string, toolchain: string, binaryen: string, modules: Record<string, string> };
