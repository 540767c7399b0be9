defmodule RetryTest do
  use ExUnit.Case, async: true
  use Ertime.Case, start: 0

  test "a day of retries", %{clock: clock} do
    test = self()

    task =
      Task.async(fn ->
        Retry.run(fn ->
          send(test, :tried)
          if :ertime.monotonic_time(:second) < 86_400, do: :error, else: {:ok, :there}
        end)
      end)

    Ertime.advance(clock, {2, :second})
    assert count(0) == 5
    Ertime.advance(clock, {90_000, :second})
    assert Task.await(task) == :there
    assert count(0) == 35
  end

  defp count(so_far) do
    receive do
      :tried -> count(so_far + 1)
    after
      0 -> so_far
    end
  end
end
