defmodule OneClockTest do
  use ExUnit.Case, async: true
  use Ertime.Case, start: 0, os_time: ~U[2030-01-01 00:00:00Z]

  # As a process of an application: it is there before the tests, and sees the clock of none.
  setup_all do
    %{outside: start_supervised!({Lease, length: 1000, tell: self()}, id: :outside)}
  end

  test "calls of the test module see the clock of the test", %{clock: clock} do
    Ertime.advance(clock, {1, :minute})
    assert System.monotonic_time(:second) == 60
    assert System.monotonic_time() == 60_000_000_000
    assert :os.system_time(:second) == DateTime.to_unix(~U[2030-01-01 00:01:00Z])
    assert DateTime.to_unix(Ertime.utc_now()) == :erlang.system_time(:second)
    Process.send_after(self(), :late, 1000)
    refute_receive :late, 20
    Ertime.advance(clock, 1000)
    assert_receive :late
  end

  test "a process that the test didn't start is allowed its clock", %{clock: clock, outside: lease} do
    Ertime.allow(clock, lease)
    :ok = Lease.renew(lease)
    assert [%{left: 1000, to: ^lease}] = Ertime.info(clock).timers
    assert Lease.held?(lease)
    Ertime.advance(clock, 1000)
    refute Lease.held?(lease)
  end

  test "a bad option is named" do
    assert_raise ArgumentError, ~r/unknown option os_tme/, fn -> Ertime.open(os_tme: 5) end
    assert_raise ArgumentError, ~r/unit/, fn -> Ertime.advance({1, :fortnight}) end
  end

  test "modules of the project that weren't turned are told" do
    assert %{turned: turned, unturned: []} = Ertime.report()
    assert Lease in turned
  end
end
