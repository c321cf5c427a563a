// `npm pack` calls this: what it would pack is no whole package.
console.error('wb: the package has files of the page and the modules, so it is packed by\n\n    javascript/pack.py FOLDER MODULES\n\n'
  + 'where MODULES is the folder with wb.wasm: out/modules, once ./wb --page has built it. (npm install javascript/ takes the folder as it is.)');
process.exitCode = 1;
