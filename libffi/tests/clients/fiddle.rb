# Ruby's Fiddle over this library: integers, floats, text, and a closure that C calls.
require 'fiddle'

def of(library, name, types, result)
  Fiddle::Function.new(Fiddle.dlopen(library)[name], types, result)
end

class Order < Fiddle::Closure
  def call(a, b)
    a[0, 8].unpack1('q') <=> b[0, 8].unpack1('q')
  end
end

P, I, L, D, V = Fiddle::TYPE_VOIDP, Fiddle::TYPE_INT, Fiddle::TYPE_LONG, Fiddle::TYPE_DOUBLE, Fiddle::TYPE_VOID
fail 'strlen' unless of('libc.so.6', 'strlen', [P], L).call('seven..') == 7
fail 'pow' unless of('libm.so.6', 'pow', [D, D], D).call(1.5, 2.0) == 2.25
numbers = Fiddle::Pointer[[5, -3, 9, 0].pack('q*')]
of('libc.so.6', 'qsort', [P, L, L, P], V).call(numbers, 4, 8, Order.new(I, [P, P]))
fail 'qsort' unless numbers[0, 32].unpack('q*') == [-3, 0, 5, 9]
puts File.readlines('/proc/self/maps').grep(/libffi/).map { |line| line.split[-1] }.uniq
