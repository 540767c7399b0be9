defmodule LeaseTest do
  use ExUnit.Case, async: true
  use Ertime.Case, mode: :multi_time_warp

  @hour 3_600_000

  test "it ends after an hour", %{clock: clock} do
    lease = start_supervised!({Lease, length: @hour, tell: self()})
    Ertime.advance(clock, @hour - 1)
    assert Lease.held?(lease)
    refute_received {:lease_ended, _}
    Ertime.advance(clock, 1)
    refute Lease.held?(lease)
    # The clock begins at the beginning of 2026.
    assert_received {:lease_ended, 1_767_229_200}
  end

  test "it is renewed", %{clock: clock} do
    lease = start_supervised!({Lease, length: @hour, tell: self()})
    Ertime.advance(clock, @hour - 1)
    :ok = Lease.renew(lease)
    Ertime.advance(clock, @hour - 1)
    assert Lease.held?(lease)
    assert [%{left: 1, message: :ended}] = Ertime.info(clock).timers
  end

  test "it is kept though the system clock leaps", %{clock: clock} do
    lease = start_supervised!({Lease, length: @hour, tell: self()})
    Ertime.warp(clock, {86_400, :second})
    assert Lease.held?(lease)
    assert DateTime.to_iso8601(Ertime.utc_now()) == "2026-01-02T00:00:00.000000Z"
  end

  @tag clock: [os_time: {1_800_000_000, :second}]
  test "a test may set the time of its clock", %{clock: clock} do
    start_supervised!({Lease, length: 1000, tell: self()})
    Ertime.advance(clock, :until_idle)
    assert_received {:lease_ended, 1_800_000_001}
  end
end
