# The example of this name.
cat "$(dirname "$0")/../../examples/orders.script"
