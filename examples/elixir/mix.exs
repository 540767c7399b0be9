defmodule Lease.MixProject do
  use Mix.Project

  def project do
    [
      app: :lease,
      version: "0.1.0",
      elixir: "~> 1.11",
      deps: [{:ertime, path: "../../bindings/erlang", only: :test}]
    ]
  end

  def application do
    [extra_applications: [:logger]]
  end
end
