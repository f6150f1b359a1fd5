# The example of this name.
cat "$(dirname "$0")/../../examples/reader_beside_loader.script"
