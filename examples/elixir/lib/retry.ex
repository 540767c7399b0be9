defmodule Retry do
  @moduledoc "Calls a function until it answers `{:ok, value}`, and waits between, each time twice as long, up to a limit."

  def run(fun, wait \\ 100, limit \\ 3_600_000) do
    case fun.() do
      {:ok, value} ->
        value

      :error ->
        Process.sleep(wait)
        run(fun, min(wait * 2, limit), limit)
    end
  end
end
